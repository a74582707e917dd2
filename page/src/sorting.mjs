// The order of the list, by any of its columns.

import { codesIn, rankOf } from './cards.mjs';
import { numbersOf, placesBy, placesByNumber } from './ordering.mjs';
import { ACCEPTED, OWED, UNKNOWN } from './part.mjs';
import { allInOf, NO_ROW } from './played.mjs';

/** @typedef {import('./hands.mjs').Hands} Hands */
/** @typedef {import('./played.mjs').Played} Played */

const RANKS = 13, PAIR = 1000, STREETS = ['', 'preflop', 'predraw', '3rd', '4th', 'flop', '5th', 'turn', '6th'];

/**
 * Returns how high starting cards are: pairs above all others, and then by their two highest ranks.
 * @param {number} cards
 */
const rankSumOf = (cards) => {
    const [a = -1, b = -1] = codesIn(cards).map(rankOf).sort((one, other) => other - one);
    return a * RANKS + b + (a === b && a >= 0 ? PAIR : 0);
};

/**
 * What a column sorts by. The number of a hand isn't among them, because it can be too large for a number.
 * @type {{ [column: string]: (hands: Hands, it: Played) => number }}
 */
const KEYS = {
    stakes: ({ columns }, { hand }) => columns.big[hand],
    cards: ({ columns }, { row }) => row === NO_ROW ? 0 : rankSumOf(columns.cards[row]),
    board: ({ columns }, { hand }) => columns.board[hand],
    position: ({ columns }, { row }) => row === NO_ROW ? 0 : columns.position[row],
    pot: ({ columns }, { hand }) => Number(columns.pot[hand]),
    net: ({ columns }, { hand, row }) =>
        row === NO_ROW || !(columns.flags[hand] & ACCEPTED) ? 0 : Number(columns.net[row]),
    luck: ({ columns }, { hand, row }) => row === NO_ROW || !(columns.flags[hand] & ACCEPTED)
        || columns.marks[row] & UNKNOWN ? 0 : Number(columns.net[row] - columns.even[row]),
    'all-in': (hands, it) => STREETS.indexOf(hands.texts[allInOf(hands, it)]),
    verdict: ({ columns }, { hand }) =>
        (columns.flags[hand] & ACCEPTED ? 0 : 2) + (columns.flags[hand] & OWED ? 1 : 0)
};

/**
 * Returns hands in the order of a column. Those with one value stay in order of time, and the last one comes first if
 * values fall.
 * @param {Hands} hands
 * @param {Played[]} entries  in order of time
 * @param {string} column
 * @param {boolean} isRising
 * @returns {Played[]}
 */
export const sorted = (hands, entries, column, isRising) => {
    const { length } = entries, key = KEYS[column];
    const places = column === 'number' ? placesByNumber(hands, entries.map(({ hand }) => hand))
        : placesBy(numbersOf(length, (at) => key ? key(hands, entries[at]) : at));
    if (!isRising) places.reverse();
    const all = new Array(length);
    for (let at = 0; at < length; at++) all[at] = entries[places[at]];
    return all;
};

/** The tallest list that a browser can scroll, in pixels. */
const TALLEST = 15e6;

/**
 * Returns how high a list is, in pixels.
 * @param {{ count: number, size: number }} list
 * @param {number} [most]
 */
export const heightOf = ({ count, size }, most = TALLEST) => Math.min(count * size, most);

/**
 * Which rows of a long list are drawn, and how much room is above and below them. A list that is taller than a browser
 * can scroll is shortened, and then each pixel of the bar stands for more than one row.
 * @param {{ count: number, size: number, scroll: number, height: number }} list
 * @param {number} [most]  the tallest list, in pixels
 */
export const windowOf = ({ count, size, scroll, height }, most = TALLEST) => {
    const MORE = 8, whole = heightOf({ count, size }, most), rows = Math.ceil(height / size);
    const room = Math.max(1, whole - height), first = whole < count * size
        ? Math.floor(Math.min(1, scroll / room) * Math.max(0, count - Math.floor(height / size)))
        : Math.floor(scroll / size);
    const from = Math.max(0, Math.min(count, first) - MORE), to = Math.min(count, first + rows + MORE);
    const last = whole - (to - from) * size;
    const above = whole === count * size ? from * size
        : to === count ? last : Math.max(0, Math.min(scroll - (first - from) * size, last));
    return { from, to, above, below: Math.max(0, whole - above - (to - from) * size) };
};

/**
 * Returns where to scroll so that a row can be seen.
 * @param {{ count: number, size: number, scroll: number, height: number }} list
 * @param {number} row
 * @param {number} [most]
 */
export const scrollTo = ({ count, size, scroll, height }, row, most = TALLEST) => {
    if (count * size > most)
        return row / Math.max(1, count - Math.floor(height / size)) * Math.max(1, most - height);
    const top = row * size;
    // the head of the table lies over the first row
    return top < scroll ? top : top + 2.2 * size > scroll + height ? top + 2.2 * size - height : scroll;
};
