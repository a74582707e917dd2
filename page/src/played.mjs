// Which hands there are, in order of time, and which of them a player played.

import { byPlace } from './hands.mjs';
import { byNumber, numbersOf, placesBy, placesByNumber } from './ordering.mjs';
import { ACCEPTED, CASHED, MONEY, OWED, SHOWN, UNIT_KNOWN } from './part.mjs';

/** @typedef {import('./hands.mjs').Hands} Hands */

/** So few hands are sorted by a comparison. */
const FEW = 16;

/**
 * Returns the hands in order of clock and number, each number once. Hands without a clock come after them, by path and
 * line.
 * @param {Hands} hands
 */
export const inOrder = (hands) => {
    const { clock, copy } = hands.columns, all = new Uint32Array(hands.count), undated = [];
    let dated = 0;
    for (let hand = 0; hand < hands.count; hand++) {
        if (copy[hand]) continue;
        if (Number.isNaN(clock[hand])) undated.push(hand);
        else all[dated++] = hand;
    }
    const order = placesBy(numbersOf(dated, (at) => clock[all[at]]));
    for (let at = 0; at < dated; at++) order[at] = all[order[at]];
    // hands of one second go by number
    for (let from = 0, to; from < dated; from = to) {
        for (to = from + 1; to < dated && clock[order[to]] === clock[order[from]]; to++);
        const some = order.subarray(from, to), { length } = some;
        if (length > FEW) some.set(placesByNumber(hands, some).map((at) => some[at]));
        else if (length > 1) some.sort((a, b) => byNumber(hands.numbers[a], hands.numbers[b]));
    }
    undated.sort((a, b) => byPlace(hands, a, b) || byNumber(hands.numbers[a], hands.numbers[b]));
    all.set(order);
    all.set(undated, dated);
    return all.slice(0, dated + undated.length);
};

/** @typedef {{ hand: number, row: number }} Played */

/**
 * Returns the accepted hands of a name in a unit, in order, each with the row of the player.
 * @param {Hands} hands
 * @param {Uint32Array} order
 * @param {string} name
 * @param {string} unit
 */
export const playedBy = (hands, order, name, unit) => {
    const { flags, first, name: names } = hands.columns, id = hands.ids.get(name), own = hands.ids.get(unit),
                               units = hands.columns.unit;
    /** @type {Played[]} */
    const played = [];
    if (id === undefined || own === undefined) return played;
    for (const hand of order) {
        if (!(flags[hand] & ACCEPTED) || units[hand] !== own) continue;
        for (let row = first[hand]; row < first[hand + 1]; row++)
            if (names[row] === id) played.push({ hand, row });
    }
    return played;
};

/** The player who stands for all players, as a desk wants them. */
export const EVERYBODY = '*';

/** The row of a hand that is looked at without a player. */
export const NO_ROW = -1;

/**
 * Returns the hands of a name in a unit, in order, each with the row of the player: the accepted ones, and the rejected
 * ones at which the name is seated and which may be of the unit. Of everybody, these are all hands of the unit, or all
 * hands if no unit is given.
 * @param {Hands} hands
 * @param {Uint32Array} order
 * @param {string} name
 * @param {string} unit
 */
export const entriesOf = (hands, order, name, unit) => {
    const { flags, first, name: names, unit: units } = hands.columns, id = hands.ids.get(name),
                               own = hands.ids.get(unit), isEvery = name === EVERYBODY;
    /** @type {Played[]} */
    const entries = [];
    for (const hand of order) {
        const isOther = flags[hand] & UNIT_KNOWN && units[hand] !== own;
        if (isOther && (!isEvery || unit)) continue;
        if (isEvery) entries.push({ hand, row: NO_ROW });
        else for (let row = first[hand]; row < first[hand + 1]; row++)
            if (names[row] === id) entries.push({ hand, row });
    }
    return entries;
};

/**
 * Returns those of some hands that are rejected, and those that are in sums.
 * @param {Hands} hands
 * @param {Played[]} entries
 */
export const parted = (hands, entries) => {
    const { flags } = hands.columns;
    /** @type {Played[]} */
    const played = [];
    /** @type {Played[]} */
    const left = [];
    for (const it of entries) (flags[it.hand] & ACCEPTED ? played : left).push(it);
    return { played, left };
};

/**
 * Returns the units in which a name, or everybody, has accepted hands, the most frequent first.
 * @param {Hands} hands
 * @param {Uint32Array} order
 * @param {string} name
 */
export const unitsOf = (hands, order, name) => {
    const { flags, first, name: names, unit } = hands.columns, id = hands.ids.get(name);
    const counts = new Uint32Array(hands.texts.length);
    /** @type {number[]} */
    const found = [];
    const add = (/** @type {number} */ it) => { if (!counts[it]++) found.push(it); };
    for (const hand of order) {
        if (!(flags[hand] & ACCEPTED)) continue;
        if (name === EVERYBODY) add(unit[hand]);
        else for (let row = first[hand]; row < first[hand + 1]; row++) if (names[row] === id) add(unit[hand]);
    }
    return found.sort((a, b) => counts[b] - counts[a]).map((it) => hands.texts[it]);
};

/**
 * Returns the text of the street of an all-in. A player who folded before isn't in it.
 * @param {Hands} hands
 * @param {Played} entry
 */
export const allInOf = ({ columns }, { hand, row }) =>
    row === NO_ROW || columns.marks[row] & SHOWN ? columns.street[hand] : 0;

/**
 * What the list of hands shows of one.
 * @param {Hands} hands
 * @param {number} hand
 */
export const handAt = (hands, hand) => {
    const { columns, texts } = hands, flags = columns.flags[hand];
    return {
        hand,
        number: hands.numbers[hand],
        clock: columns.clock[hand],
        isAccepted: (flags & ACCEPTED) !== 0,
        isMoney: (flags & MONEY) !== 0,
        isOwed: (flags & OWED) !== 0,
        isCashed: (flags & CASHED) !== 0,
        line: columns.line[hand],
        departs: columns.departs[hand],
        cause: texts[columns.cause[hand]],
        stakes: texts[columns.stakes[hand]],
        game: texts[columns.game[hand]],
        table: texts[columns.table[hand]],
        tournament: texts[columns.tournament[hand]],
        unit: texts[columns.unit[hand]],
        settle: hands.owed.get(hand) || [],
        source: hands.sources[columns.file[hand]],
        start: columns.start[hand],
        end: columns.end[hand]
    };
};
