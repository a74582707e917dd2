// A row of the list of hands.

import { unpacked } from './cards.mjs';
import { causeOf } from './causes.mjs';
import { having, icon, node } from './dom.mjs';
import { allInOf, handAt, NO_ROW } from './played.mjs';
import { UNKNOWN } from './part.mjs';
import { inLine } from './play.mjs';
import { POSITIONS, POSITION_WORDS } from './positions.mjs';
import { sayer } from './settling.mjs';
import { dayText, hourText, MINUS, signOf, stakesText, sumText, toneOf } from './words.mjs';

/** @typedef {import('./choice.mjs').Choice} Choice */
/** @typedef {import('./played.mjs').Played} Played */

/**
 * Returns why a hand is rejected, in a few words.
 * @param {ReturnType<typeof handAt>} it
 */
export const shortOf = (it) =>
    causeOf(it.cause, { say: sayer(it.unit), seat: (number) => `Seat ${number}`, isCashed: it.isCashed }).short;

/** @param {ReturnType<typeof handAt>} it */
const verdictNode = (it) => it.isAccepted
    ? having(node('span.okay', icon('check')), { role: 'img', 'aria-label': 'accepted' })
    : node('span.tag.warn', shortOf(it));

/**
 * Returns who is still to get or to give back what.
 * @param {ReturnType<typeof handAt>} it
 */
export const settleText = (it) => it.isAccepted ? '' : it.settle.map(({ name, amount }) =>
    `${name} ${sayer(it.unit)(amount).replace(/^-/, MINUS).replace(/^(?!\u2212)/, '+')}`).join(', ');

/** @param {number} clock */
const timeNode = (clock) => {
    if (Number.isNaN(clock)) return [node('span.faint', 'no date')];
    const [, day, year] = /^(.*)( \d+)$/.exec(dayText(clock)) || ['', dayText(clock), ''];
    return [day, node('span.year', year), ' ', node('span.faint', hourText(clock))];
};

/**
 * Returns the row of a hand.
 * @param {Choice} choice
 * @param {Played} entry
 */
export const rowNode = ({ hands, isEvery, unit }, { hand, row }) => {
    const it = handAt(hands, hand), { columns } = hands, board = unpacked(columns.board[hand]), { isMoney } = it;
    const isOf = row !== NO_ROW, cards = isOf ? unpacked(columns.cards[row]) : [];
    const position = isOf ? POSITIONS[columns.position[row]] : '', pot = columns.pot[hand];
    const isIn = isOf && it.isAccepted;
    const net = isIn ? columns.net[row] : 0n, isKnown = isIn && !(columns.marks[row] & UNKNOWN);
    const luck = isKnown ? net - columns.even[row] : 0n, street = hands.texts[allInOf(hands, { hand, row })];
    const stakes = stakesText(it.stakes, isEvery), settle = settleText(it);
    const amount = (/** @type {bigint} */ sum, plus = true) =>
        sumText(sum, { isMoney, plus, sign: unit ? '' : signOf(it.unit) });
    const pill = position ? [having(node(position === 'BTN' ? 'span.posn.is-btn' : 'span.posn', position),
        { title: POSITION_WORDS[position] })] : [];
    const phone = it.isAccepted ? [[position, stakes, street && `all-in ${street}`].filter(Boolean).join(' · ')]
        : [position ? `${position} ` : '', isEvery && settle ? `${settle} ` : '', verdictNode(it)];
    return node('tr',
        node('td.col-time', ...timeNode(it.clock)),
        node('td.col-stakes', stakes),
        node('td.col-cards', ...inLine(cards)),
        node('td.col-board', ...board.length ? inLine(board) : [node('span.faint', '–')]),
        node('td.col-position', ...pill),
        node('td.col-pot.number', pot ? amount(pot, false) : ''),
        node(`td.col-net.number.${isIn ? toneOf(net) || 'faint' : 'faint'}`,
            isIn ? amount(net) : isOf ? 'left out' : ''),
        node(`td.col-luck.number.${toneOf(luck) || 'faint'}`, luck ? amount(luck) : ''),
        node('td.col-all-in.soft', street),
        node('td.col-verdict', verdictNode(it), settle && ` ${settle}`),
        node('td.col-number.number.soft', it.number),
        node('td.phone', ...phone));
};
