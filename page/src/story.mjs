// A hand as a story: what each player did on each street, and at an all-in the equities as bars.

import { having, icon, node } from './dom.mjs';
import { changeOf } from './odds.mjs';
import { face, inLine } from './play.mjs';
import { counted, many } from './progress.mjs';
import { together } from './replay.mjs';
import { MINUS, toneOf } from './words.mjs';

/** @typedef {import('./replay.mjs').Street} Street */
/** @typedef {import('./odds.mjs').StreetOdds} StreetOdds */

/** @param {string[]} names */
const listed = (names) =>
    names.length < 2 ? names.join('') : `${names.slice(0, -1).join(', ')} and ${names[names.length - 1]}`;

/**
 * Returns what was done on a street, with the numbers of the lines.
 * @param {Street} street
 * @param {(sum: bigint) => string} say
 */
const actsNode = ({ acts }, say) => node('ol.told', ...together(acts).map(({ act, names }) => {
    const { kind, amount, cards, isAllIn, line, words } = act, isQuiet = ['folds', 'checks', 'mucks'].includes(kind);
    return node('li', node('i', String(line)),
        node(`span${isQuiet ? '.fold' : isAllIn ? '.all-in' : ''}`, node('b', listed(names)),
            ` ${names.length > 1 ? 'fold' : words}`, ...cards.length ? [' ', ...inLine(cards)] : [],
            amount === null ? '' : ` ${say(amount)}`, isAllIn ? ', all-in' : ''));
}));

/**
 * Returns a bar of a part that is won and a part that is tied.
 * @param {number} won
 * @param {number} tied
 * @param {boolean} isMe
 */
export const trackNode = (won, tied, isMe) => {
    const parts = [node('i'), node('i.tie')];
    [won, tied].forEach((part, at) => { parts[at].style.width = `${Math.max(0, Math.min(1, part)) * 100}%`; });
    return having(node(isMe ? 'div.track.me' : 'div.track', ...parts), { 'aria-hidden': 'true' });
};

/** @param {number} value */
const changeText = (value) => value === 0 ? '0.0' : `${value > 0 ? '+' : MINUS}${Math.abs(value).toFixed(1)}`;

/**
 * Returns the equities of a street, one block for each pot.
 * @param {StreetOdds} odds
 * @param {StreetOdds | undefined} before
 * @param {{ potText: (number: number) => [string, string], cards: Map<string, string[]>, hero: string }} hand
 */
export const oddsNodes = (odds, before, { potText, cards, hero }) => odds.pots.map(({ number, rows }) => {
    const [name, gross] = potText(number);
    return node('div.eq', node('p', node('span', node('b', name), ` ${gross}`),
        node('span', odds.runouts === 1 ? 'all cards known' : many(odds.runouts, 'runout'))),
    node('ul.bars', ...rows.map((row) => {
        const change = changeOf(before, number, row), [side] = row.sides, isOne = row.sides.length === 1;
        const won = isOne ? side.win / odds.runouts : row.part, shown = cards.get(row.name) || [];
        const counts = row.sides.map(({ side: word, win, tie, lose }) => `${isOne ? '' : `${word}: `}wins ${
            counted(win)}, ties ${counted(tie)}, loses ${counted(lose)} of ${counted(odds.runouts)}`).join('; ');
        const bar = having(node('span.bar', trackNode(won, row.part - won, row.name === hero)), { title: counts });
        return node('li', node('span.cards', ...inLine(shown)), having(node('span.who', row.name), { title: row.name }),
            bar, node('span.pct', `${(row.part * 100).toFixed(1)} %`, node('span.vh', `, ${counts}`)),
            node(`span.delta.${change === null ? 'faint' : toneOf(change) || 'faint'}`,
                change === null ? '' : changeText(change)));
    })));
});

/**
 * Returns a street of a hand.
 * @param {Street} street
 * @param {{ say: (sum: bigint) => string, odds: HTMLElement[], ask: (() => void) | null }} form
 */
export const streetNode = (street, { say, odds, ask }) => {
    const { name, board, fresh, acts, after } = street, isLater = board.length > fresh.length;
    const faces = fresh.length ? board.map((card) => face(card,
        isLater && fresh.includes(card) ? '.small.new' : '.small')) : [];
    const head = node('header', node('h3', name), node('span.faces', ...faces),
        node('span.pot', 'pot ', node('b', say(after.pot))));
    if (ask) {
        const it = node('button.btn.quiet', icon('plus'), 'Use as a spot');
        it.title = 'Ask this street as a spot, with the known cards of those who folded as dead ones';
        it.onclick = ask;
        head.append(having(it, { type: 'button' }));
    }
    return node('section.street', head, acts.length ? actsNode(street, say) : node('p.faint', 'No more betting.'),
        ...odds.length ? [node('div.eqs', ...odds)] : []);
};
