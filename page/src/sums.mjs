// Sums over hands, each of whole units in one unit and one currency. A sum can pass 2^63, so sums are BigInt.

import { dayNames, sessions, timeOf } from './clock.mjs';
import { SHOWN, UNKNOWN } from './part.mjs';
import { POSITIONS } from './positions.mjs';

/** @typedef {import('./hands.mjs').Hands} Hands */
/** @typedef {import('./played.mjs').Played} Played */
/**
 * What was won in hands of one big blind or big bet.
 * @template {bigint | number} T
 * @typedef {{ hands: number, net: T, even: T, rake: number }} OfBig
 */
/**
 * Sums of hands. `bigs` has those of each big blind, and no hand of a stud game or a tournament.
 * @template {bigint | number} T
 * @typedef {{ hands: number, got: T, net: T, even: T, shown: T, unknown: number, rake: number,
 *     bigs: Map<number, OfBig<T>> }} SumOf
 */
/** @typedef {SumOf<bigint>} Sum */

/** Sums of whole numbers below this one are exact in numbers, which are added several times as fast. */
const EXACT = 2 ** 53;

/**
 * Returns what begins a sum, adds a hand of a player to it, and ends it. A sum that is exact in numbers is one until it
 * ends.
 * @param {Hands} hands
 */
const adder = ({ bulk, columns }) => {
    const { got: gots, net: nets, even: evens, marks, big: bigs, raked } = columns, isExact = bulk < EXACT;
    const zero = /** @type {any} */ (isExact ? 0 : 0n);
    /** @returns {SumOf<any>} */
    const begin = () =>
        ({ hands: 0, got: zero, net: zero, even: zero, shown: zero, unknown: 0, rake: 0, bigs: new Map() });
    /**
     * @param {SumOf<any>} sum
     * @param {Played} played
     */
    const add = (sum, { hand, row }) => {
        const net = /** @type {any} */ (isExact ? Number(nets[row]) : nets[row]), mark = marks[row], big = bigs[hand];
        const even = /** @type {any} */ (isExact ? Number(evens[row]) : evens[row]), rake = raked[row];
        sum.hands++;
        sum.got += /** @type {any} */ (isExact ? Number(gots[row]) : gots[row]);
        sum.net += net;
        sum.even += even;
        sum.rake += rake;
        if (mark & SHOWN) sum.shown += net;
        if (mark & UNKNOWN) sum.unknown++;
        if (!(big > 0)) return sum;
        let it = sum.bigs.get(big);
        if (!it) sum.bigs.set(big, it = { hands: 0, net: zero, even: zero, rake: 0 });
        it.hands++;
        it.net += net;
        it.even += even;
        it.rake += rake;
        return sum;
    };
    /**
     * @param {SumOf<any>} sum
     * @returns {Sum}
     */
    const end = (sum) => ({
        ...sum, got: BigInt(sum.got), net: BigInt(sum.net), even: BigInt(sum.even), shown: BigInt(sum.shown),
        bigs: new Map([...sum.bigs].map(([big, it]) => [big, { ...it, net: BigInt(it.net), even: BigInt(it.even) }]))
    });
    return { begin, add, end };
};

/**
 * Returns how many big blinds, or in limit big bets, were won in a hundred hands, and with average luck, and how many
 * the rake was. Returns null if no hand has one.
 * @param {Sum} sum
 */
export const hundredsOf = ({ bigs }) => {
    let hands = 0, net = 0, even = 0, rake = 0;
    for (const [big, it] of bigs) {
        hands += it.hands;
        net += Number(it.net) / big;
        even += Number(it.even) / big;
        rake += it.rake / big;
    }
    return hands ? { net: net / hands * 100, even: even / hands * 100, rake: rake / hands * 100, hands } : null;
};

/**
 * Returns the sum of an amount over the hands of some entries.
 * @param {Hands} hands
 * @param {'rake' | 'pot'} amount
 * @param {Played[]} entries
 */
export const totalOf = ({ bulk, columns }, amount, entries) => {
    const column = columns[amount];
    return bulk < EXACT ? BigInt(entries.reduce((sum, { hand }) => sum + Number(column[hand]), 0))
        : entries.reduce((sum, { hand }) => sum + column[hand], 0n);
};

/**
 * @param {Hands} hands
 * @param {Played[]} played
 */
export const sumOf = (hands, played) => {
    const { begin, add, end } = adder(hands);
    return end(played.reduce(add, begin()));
};

/**
 * Returns how many tournaments there are, what their buy-ins cost by the headers, by the sign of the currency and in
 * hundredths, and of how many that isn't known. A freeroll costs nothing. Whether a player bought in again isn't known.
 * @param {Hands} hands
 * @param {Played[]} played
 */
export const buyInsOf = ({ columns, texts }, played) => {
    const all = [...new Set(played.map(({ hand }) => columns.tournament[hand]))].filter(Boolean);
    /** @type {Map<string, bigint>} */
    const sums = new Map();
    let unknown = 0;
    for (const it of all) {
        const amounts = [...texts[it].matchAll(/([$€£])([0-9]+)(?:\.([0-9]{2}))?/g)];
        if (!amounts.length && !texts[it].endsWith('Freeroll')) unknown++;
        for (const [, sign, whole, part = '00'] of amounts)
            sums.set(sign, (sums.get(sign) || 0n) + BigInt(whole + part));
    }
    return { tournaments: all.length, sums: [...sums], unknown };
};

/** What hands can be grouped by. */
export const GROUPS = ['month', 'day', 'session', 'stakes', 'game', 'position', 'table', 'tournament'];

/**
 * Returns the key of each played hand for a group.
 * @param {Hands} hands
 * @param {Played[]} played  in order
 * @param {string} group
 * @returns {string[]}
 */
export const keysOf = (hands, played, group) => {
    const { columns, texts } = hands, clocks = played.map(({ hand }) => columns.clock[hand]);
    if (group === 'session') {
        const numbers = sessions(clocks), begins = new Map();
        numbers.forEach((number, at) => {
            if (!begins.has(number)) begins.set(number, timeOf(clocks[at]).slice(0, 16));
        });
        return numbers.map((number) => number ? begins.get(number) : 'no date');
    }
    if (group === 'day' || group === 'month') {
        const day = dayNames(group === 'day' ? 10 : 7);
        return clocks.map((clock) => day(clock) || 'no date');
    }
    if (group === 'position') return played.map(({ row }) => POSITIONS[columns.position[row]] || 'none');
    const column = /** @type {any} */ (columns)[group];
    return played.map(({ hand }) => texts[column[hand]] || `no ${group}`);
};

/**
 * Returns the sums of some hands by their keys.
 * @param {Hands} hands
 * @param {Played[]} played
 * @param {string[]} keys
 */
export const sumsBy = (hands, played, keys) => {
    const { begin, add, end } = adder(hands);
    /** @type {Map<string, SumOf<any>>} */
    const sums = new Map();
    played.forEach((it, at) => {
        let sum = sums.get(keys[at]);
        if (!sum) sums.set(keys[at], sum = begin());
        add(sum, it);
    });
    return new Map([...sums].map(([key, sum]) => [key, end(sum)]));
};

const COLLATOR = new Intl.Collator('en', { numeric: true });

/**
 * Compares keys so that 2/4 comes before 10/20: numbers in a text count as numbers.
 * @param {string} a
 * @param {string} b
 */
export const byKey = (a, b) => COLLATOR.compare(a, b);
