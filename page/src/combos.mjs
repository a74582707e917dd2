// The hands of a range with their weights, and the choices of one hand from each range.

import { cardNumber, cardText, RANKS } from './ranks.mjs';

/**
 * A hand: its cards, the first with the lower number, and its weight.
 * @typedef {{ first: number, second: number, weight: number }} Combo
 */

const CARDS = 52, DECK = Array.from({ length: CARDS }, (it, at) => at);
const rankOf = (/** @type {number} */ card) => card >> 2;
const suitOf = (/** @type {number} */ card) => card & 3;
const keyOf = (/** @type {number} */ first, /** @type {number} */ second) => first * CARDS + second;

/**
 * Returns whether an item of the program, without its weight, has a hand in it, as a test of the hand's cards.
 * @param {string} item
 * @returns {(first: number, second: number) => boolean}
 */
const testOf = (item) => {
    const cards = [cardNumber(item.slice(0, 2)), cardNumber(item.slice(2))].sort((a, b) => a - b);
    if (cards[0] >= 0) return (first, second) => first === cards[0] && second === cards[1];
    // a lower number is a higher rank
    const high = RANKS.indexOf(item[0]), low = RANKS.indexOf(item[1]), isOpen = item.endsWith('+');
    const suits = item[2] === 's' || item[2] === 'o' ? item[2] : '';
    if (high === low)
        return (first, second) => rankOf(first) === rankOf(second) &&
            (isOpen ? rankOf(first) <= high : rankOf(first) === high);
    return (first, second) => rankOf(first) === high && rankOf(second) <= low && rankOf(second) > high &&
        (isOpen || rankOf(second) === low) &&
        (!suits || (suitOf(first) === suitOf(second)) === (suits === 's'));
};

/**
 * Returns the hands of a range of the program that have none of some cards, in the order of their cards.
 * @param {string} range
 * @param {string[]} [gone]
 */
export const combosOf = (range, gone = []) => {
    const known = new Set(gone.map(cardNumber)), items = range.split(',').filter(Boolean).map((text) => {
        const [item, weight = '1'] = text.split(':');
        return { has: testOf(item), weight: Number(weight) };
    });
    /** @type {Combo[]} */
    const found = [];
    for (const first of DECK)
        for (const second of DECK.slice(first + 1)) {
            if (known.has(first) || known.has(second)) continue;
            const weight = items.reduce((sum, it) => sum + (it.has(first, second) ? it.weight : 0), 0);
            if (weight) found.push({ first, second, weight });
        }
    return found;
};

/**
 * Returns a hand as an item of the program.
 * @param {Combo} combo
 */
export const comboText = ({ first, second, weight }) =>
    cardText(first) + cardText(second) + (weight === 1 ? '' : `:${weight}`);

const areApart = (/** @type {Combo} */ one, /** @type {Combo} */ other) => one.first !== other.first &&
    one.first !== other.second && one.second !== other.first && one.second !== other.second;

/**
 * Sums over the hands of a range, by card and by hand.
 * @param {Combo[]} combos
 * @param {(combo: Combo) => number} valueOf
 */
const sumsOf = (combos, valueOf) => {
    const byCard = new Float64Array(CARDS), byHand = new Float64Array(CARDS * CARDS);
    let all = 0;
    for (const combo of combos) {
        const value = valueOf(combo);
        all += value;
        byCard[combo.first] += value;
        byCard[combo.second] += value;
        byHand[keyOf(combo.first, combo.second)] += value;
    }
    return { all, byCard, byHand };
};

/**
 * Returns the sum over the hands that have none of four cards: all, less those with one, and those with two are back.
 * @param {ReturnType<typeof sumsOf>} sums
 * @param {number[]} cards
 */
const apartFrom = ({ all, byCard, byHand }, cards) => {
    let sum = all;
    for (const [at, card] of cards.entries()) {
        sum -= byCard[card];
        for (const other of cards.slice(at + 1)) sum += byHand[keyOf(Math.min(card, other), Math.max(card, other))];
    }
    return sum;
};

/**
 * Counts the choices of one hand from each of two or three ranges, no two of which share a card, and adds up their
 * weights, without listing those of three. Each sum is below 2 to the power 53.
 * @param {Combo[][]} sides
 */
export const choicesOf = ([one, two, three]) => {
    const counts = three && sumsOf(three, () => 1), weights = three && sumsOf(three, ({ weight }) => weight);
    let choices = 0, weight = 0;
    for (const a of one)
        for (const b of two) {
            if (!areApart(a, b)) continue;
            const cards = [a.first, a.second, b.first, b.second];
            choices += counts ? apartFrom(counts, cards) : 1;
            weight += a.weight * b.weight * (weights ? apartFrom(weights, cards) : 1);
        }
    return { choices, weight };
};
