// The items of a range as people type them, in the words of the mode `ranges`.

import { cardsOfWord, RANKS } from './ranks.mjs';

/**
 * Items of the program with the weight that was typed, or a sentence that says what may be there.
 * @typedef {{ text: string, weight: number }} Item
 * @typedef {{ items: Item[], says?: undefined } | { items?: undefined, says: string }} ReadItem
 */

/** Every hand, as items. */
export const EVERY_HAND = [...RANKS].slice(0, -1)
    .reduce((all, rank) => all.concat(rank === '3' ? ['32'] : [`${rank}2+`]), ['22+']);
const ANY = /^(?:random|rnd|any|any2|anytwo|atc|all|\*|xx|xxxx|\*\*|100%)$/;

const SAYS_RANGE = 'is neither a card nor a range. A card is a rank and a suit, such as Ah, Td, or 2c. A range is, ' +
    'for example, TT+, AKs, A9s+, or 99-66.';
const SAYS_WEIGHT = 'has no such weight. After a colon, write a whole number from 1 to 100, as in AK:2, or a part, ' +
    'as in AK:0.5 or AK:50%.';
const SAYS_RUN = 'is no run of hands. A run has pairs, as in 99-66, one first card, as in A9s-A6s, or one gap, as in ' +
    'JTs-76s.';
const SAYS_PERCENT = 'is a range in percent, which isn\'t read, because programs order the hands differently. Choose ' +
    'the hands in the grid.';
const SAYS_SUIT = 'is a rank without a suit. A card has both, such as Ah or Td. A hand of any suits has two ranks, ' +
    'such as AK or TT.';
const SAYS_ORDER = 'has the suit first. In a card the rank is first, such as Ah or Td.';
const SAYS_UNKNOWN = 'has a card without a suit. Write the suit, such as Ah, or name two ranks, such as AA or AK.';

const at = (/** @type {string} */ rank) => RANKS.indexOf(rank);

/**
 * Two ranks, the higher first, and the letter for their suits.
 * @param {string} text  in capitals
 * @returns {{ high: number, low: number, suits: string } | null}
 */
const pairOfRanks = (text) => {
    const it = /^([2-9TJQKA])([2-9TJQKA])([SO]?)$/.exec(text);
    if (!it) return null;
    const [high, low] = [at(it[1]), at(it[2])].sort((a, b) => a - b);
    return high === low && it[3] ? null : { high, low, suits: it[3].toLowerCase() };
};
const written = (/** @type {number} */ high, /** @type {number} */ low, /** @type {string} */ suits) =>
    RANKS[high] + RANKS[low] + suits;

/**
 * Returns the items of a run, the highest first, or null if the two ends don't fit.
 * @param {string} first
 * @param {string} last
 */
const runOf = (first, last) => {
    const one = pairOfRanks(first), other = pairOfRanks(last);
    if (!one || !other || one.suits !== other.suits) return null;
    const [from, to] = one.high < other.high || one.high === other.high && one.low <= other.low ? [one, other]
        : [other, one];
    const isOneTop = from.high === to.high, gap = from.low - from.high;
    if (!isOneTop && to.low - to.high !== gap) return null;
    const found = [];
    for (let low = from.low; low <= to.low; low++)
        found.push(written(isOneTop ? from.high : low - gap, low, from.suits));
    return found;
};

/**
 * Returns the items that a text without a weight names.
 * @param {string} text  in capitals, with a T for each ten
 * @returns {string[] | null}
 */
const itemsOf = (text) => {
    const plain = /^(.*?)(\+?)$/.exec(text), two = plain && pairOfRanks(plain[1]);
    if (plain && two) return [written(two.high, two.low, two.suits) + plain[2]];
    // an ace with any card below it
    const any = /^([3-9TJQKA])[X*]([SO]?)$/.exec(text);
    if (any) return [any[1] === '3' ? `32${any[2].toLowerCase()}` : `${any[1]}2${any[2].toLowerCase()}+`];
    const run = /^([^-]+)-([^-]+)$/.exec(text);
    return run && runOf(run[1], run[2]);
};

/**
 * Returns why a word is no item.
 * @param {string} text  in capitals, without a weight
 */
const reasonFor = (text) => {
    if (/^(?:TOP)?[0-9.]+%$/.test(text)) return SAYS_PERCENT;
    if (/^[2-9TJQKA]$/.test(text)) return SAYS_SUIT;
    if (/^[CDHS][2-9TJQKA]$/.test(text)) return SAYS_ORDER;
    if (/^(?:[2-9TJQKA][CDHSX])+$/.test(text)) return SAYS_UNKNOWN;
    if (/^[2-9TJQKASO]+-[2-9TJQKASO]+$/.test(text)) return SAYS_RUN;
    return SAYS_RANGE;
};

/**
 * Returns a weight, 0 if the text is none.
 * @param {string | undefined} text
 */
const weightOf = (text) => {
    if (text === undefined) return 1;
    const it = /^([0-9]{1,3}(?:\.[0-9]{1,2})?|\.[0-9]{1,2})(%?)$/.exec(text);
    return it ? Number(it[1]) / (it[2] ? 100 : 1) : 0;
};

/**
 * Reads one item of a range, in any case: ranks with a plus, runs, two cards, any two cards, and a weight.
 * @param {string} word
 * @returns {ReadItem}
 */
export const readItem = (word) => {
    const [typed, ...weights] = word.split(':'), text = typed.toUpperCase().replace(/10/g, 'T');
    const weight = weightOf(weights.length ? weights.join(':') : undefined);
    const cards = cardsOfWord(typed);
    const found = ANY.test(typed.toLowerCase()) ? EVERY_HAND
        : cards && cards.length === 2 ? [cards.join('')] : itemsOf(text);
    if (!found) return { says: reasonFor(text) };
    if (!weight || weight > 100) return { says: SAYS_WEIGHT };
    return { items: found.map((it) => ({ text: it, weight })) };
};

const divisor = (/** @type {number} */ a, /** @type {number} */ b) => {
    let [one, other] = [a, b];
    while (other) [one, other] = [other, one % other];
    return one;
};

/**
 * Writes items as a range of the program, with whole weights in the same ratios. Returns null if there are none from 1
 * to 100.
 * @param {Item[]} items
 */
export const writtenItems = (items) => {
    const isWhole = items.every(({ weight }) => Number.isInteger(weight));
    // a part has at most four decimal places, as 12.25% has
    const parts = items.map(({ weight }) => isWhole ? weight : Math.round(weight * 10000));
    const common = isWhole ? 1 : parts.reduce(divisor, 0);
    const weights = parts.map((it) => it / common);
    if (weights.some((it) => it > 100)) return null;
    return items.map(({ text }, index) => weights[index] === 1 ? text : `${text}:${weights[index]}`).join(',');
};
