// What a sheet for a dispute says of one hand. The hand on the screen says the same. Nothing here draws.

import { causeOf } from './causes.mjs';
import { settlementsOf } from './reports.mjs';
import { cardsOf, boardOf } from './streets.mjs';
import { facts, unitOf } from './texts.mjs';
import { gapOf, ordersOf, potName, rulesOf, sayer } from './settling.mjs';
import { timeOf } from './clock.mjs';

/**
 * Returns the lines of a hand with their numbers in the file. Blank lines at the end are left out, except one that
 * departs.
 * @param {string} text
 * @param {number} first  the number of the first line
 * @param {number} departs  the line that departs, or 0
 */
export const linesOf = (text, first, departs) => {
    const lines = text.split('\n').map((it) => it.replace(/\r$/, ''));
    while (lines.length > 1 && !lines[lines.length - 1].trim() && first + lines.length - 1 !== departs) lines.pop();
    return lines.map((it, at) => {
        const number = first + at, isMarked = number === departs;
        return { number, isMarked, text: isMarked && !it.trim() ? '(a blank line, the last of the hand)' : it };
    });
};

/**
 * The model of a sheet, from the text of a hand, the number of its first line, and the report of `settle` of it in CSV.
 * @param {string} text
 * @param {number} line
 * @param {string} settle
 */
export const sheetOf = (text, line, settle) => {
    const [hand] = settlementsOf(settle);
    if (!hand) throw new Error('the program finds no hand in this text');
    const it = facts(text), isMoney = hand.isAccepted ? hand.isMoney : it.isMoney === true,
          say = sayer(unitOf(isMoney, it.currency));
    const cards = cardsOf(text),
          seat = (/** @type {string} */ number) => it.seats.get(Number(number)) || `Seat ${number}`;
    const cause = hand.isAccepted ? null : causeOf(hand.cause, { say, seat, isCashed: it.isCashed });
    const departs = hand.isAccepted ? 0 : hand.line, orders = ordersOf(hand, say);
    const played = [
        it.game && `${it.game} ${it.limit} ${it.stakes}`, it.tournament && `tournament ${it.tournament}`,
        it.table && `table ${it.table}`, timeOf(it.clock) || 'no date', `${it.seats.size} players`,
        it.button ? `seat ${it.button} on the button` : ''
    ].filter(Boolean).join(', ');
    const finding = !cause ? { title: 'No line of this hand departs from the rules.', sentence: '', at: '' } : {
        title: cause.isAtEnd
            ? (cause.name === 'Split' ? 'A pot wasn\'t paid as the rules give it.' : 'The hand isn\'t finished.')
            : `Line ${departs} departs from the rules.`,
        sentence: cause.sentence,
        at: cause.isAtEnd ? `Found at the end of the hand, line ${departs}.` : `Line ${departs} is marked below.`
    };
    const pots = hand.pots.map((pot) => ({
        name: potName(pot, hand.pots.length),
        gross: say(pot.gross),
        rake: pot.rake && !/^[0.]*$/.test(pot.rake) ? say(pot.rake) : '',
        ...rulesOf(pot, say),
        shares: pot.shares.map((share) => ({
            name: share.name,
            cards: cards.get(share.name) || '',
            due: share.due === null ? 'not known' : say(share.due),
            got: say(share.got),
            gap: gapOf(share)
        }))
    }));
    return {
        number: hand.number,
        isAccepted: hand.isAccepted,
        departs,
        cause: hand.cause,
        played,
        finding,
        orders,
        pots,
        board: boardOf(text),
        paid: hand.paid.map(({ name, got }) => ({ name, got: say(got) })),
        rule: cause ? cause.rule : '',
        lines: linesOf(text, line, departs)
    };
};

/** @typedef {ReturnType<typeof sheetOf>} Sheet */
