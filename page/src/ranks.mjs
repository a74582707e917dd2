// Ranks, suits, and cards: as the program writes them, and as people read them.

/** Ranks from the ace down, and suits, in the letters of the program. */
export const RANKS = 'AKQJT98765432', SUITS = 'cdhs';

/** @type {{ [letter: string]: string }} */
const SIGNS = { c: '♣', d: '♦', h: '♥', s: '♠' };
/** @type {{ [letter: string]: string }} */
const SUIT_NAMES = { c: 'clubs', d: 'diamonds', h: 'hearts', s: 'spades' };
/** @type {{ [letter: string]: string }} */
const RANK_NAMES = {
    A: 'ace', K: 'king', Q: 'queen', J: 'jack', T: 'ten', 9: 'nine', 8: 'eight', 7: 'seven', 6: 'six', 5: 'five',
    4: 'four', 3: 'three', 2: 'deuce'
};

/**
 * Returns how a card is read aloud.
 * @param {string} card
 */
export const spokenCard = (card) => `${RANK_NAMES[card[0]]} of ${SUIT_NAMES[card[1]]}`;

/**
 * Returns the sign of a card's suit, as text and not as a picture.
 * @param {string} card
 */
export const signOf = (card) => `${SIGNS[card[1]]}\uFE0E`;

/**
 * Returns the number of a card, 0 to 51, or -1 if the text is no card.
 * @param {string} card
 */
export const cardNumber = (card) => {
    const rank = RANKS.indexOf(card[0]), suit = SUITS.indexOf(card[1]);
    return card.length === 2 && rank >= 0 && suit >= 0 ? rank * 4 + suit : -1;
};

/**
 * Returns the card with a number.
 * @param {number} number
 */
export const cardText = (number) => RANKS[number >> 2] + SUITS[number & 3];

/**
 * Reads a word of cards in any case, with a ten as 10 or T. Returns null if the word has anything else.
 * @param {string} word
 * @returns {string[] | null}
 */
export const cardsOfWord = (word) => {
    if (!/^(?:(?:10|[2-9tjqka])[cdhs])+$/i.test(word)) return null;
    const found = word.replace(/10/g, 'T').match(/../g) || [];
    return found.map((card) => card[0].toUpperCase() + card[1].toLowerCase());
};
