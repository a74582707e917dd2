// Cards as numbers, so a column can have them: a card is a number from 1 to 52, and up to eight of them are one number.

const RANKS = '23456789TJQKA', SUITS = 'cdhs', BASE = 64, MOST = 8;

const RANK_WORDS = [
    'deuce', 'three', 'four', 'five', 'six', 'seven', 'eight', 'nine', 'ten', 'jack', 'queen', 'king', 'ace'
];
/** @type {{ [suit: string]: string }} */
const SUIT_WORDS = { c: 'clubs', d: 'diamonds', h: 'hearts', s: 'spades' };

/**
 * Returns the cards of a text, in their order: "As Kh" and "AsKh" both have two.
 * @param {string} text
 */
export const cardsIn = (text) => text.match(/[2-9TJQKA][cdhs]/g) || [];

/**
 * Returns the number of a card, from 1 to 52. Higher ranks have higher numbers.
 * @param {string} card
 */
export const codeOf = (card) => RANKS.indexOf(card[0]) * SUITS.length + SUITS.indexOf(card[1]) + 1;

/**
 * Returns the rank of a card's number, from 0 for a deuce to 12 for an ace.
 * @param {number} code
 */
export const rankOf = (code) => Math.floor((code - 1) / SUITS.length);

/** @param {number} code */
export const suitOf = (code) => (code - 1) % SUITS.length;

/**
 * Returns the cards of a text as one number. Cards after the eighth are left out.
 * @param {string} text
 */
export const packed = (text) => cardsIn(text).slice(0, MOST).reduce((sum, card) => sum * BASE + codeOf(card), 0);

/**
 * Returns the numbers of the cards of a number, in their order.
 * @param {number} number
 */
export const codesIn = (number) => {
    const codes = [];
    for (let rest = number; rest > 0; rest = Math.floor(rest / BASE)) codes.unshift(rest % BASE);
    return codes;
};

/**
 * Returns the cards of a number, in their order.
 * @param {number} number
 */
export const unpacked = (number) => codesIn(number).map((code) => RANKS[rankOf(code)] + SUITS[suitOf(code)]);

/**
 * Returns a card as it is spoken: ace of spades.
 * @param {string} card
 */
export const spoken = (card) => `${RANK_WORDS[RANKS.indexOf(card[0])]} of ${SUIT_WORDS[card[1]]}`;
