// What was understood of a typed line, in cards, and the sentence that says what is wrong with it.

import { node } from './dom.mjs';
import { GAME_NAMES } from './games.mjs';
import { EVERY_HAND } from './items.mjs';
import { signOf, spokenCard } from './ranks.mjs';

/** @typedef {import('./typed.mjs').Typed} Typed */

/**
 * Makes a card.
 * @param {string} card
 */
const cardNode = (card) => {
    const it = node(`span.spotcard.suit-${card[1]}`, card[0] === 'T' ? '10' : card[0], signOf(card));
    it.setAttribute('role', 'img');
    it.setAttribute('aria-label', spokenCard(card));
    return it;
};
const cardNodes = (/** @type {string[]} */ cards) => cards.map(cardNode);

/**
 * Makes the hand or the range of a player.
 * @param {import('./sides.mjs').Side} side
 */
export const sideNode = ({ cards, range }) => cards ? node('b', ...cardNodes(cards))
    : node('b', range.split(EVERY_HAND.join(',')).join('any two cards').split(',').join(', '));

/**
 * Makes the line that says what was understood.
 * @param {Typed} typed
 */
export const understoodNode = ({ game, sides, board, dead }) => {
    const it = node('p.understood', GAME_NAMES[game], ' ');
    sides.forEach((side, at) => it.append(...at ? [' vs '] : [], sideNode(side)));
    if (board.length) it.append(' on ', node('b', ...cardNodes(board)));
    if (dead.length) it.append(' dead ', node('b', ...cardNodes(dead)));
    return it;
};

/**
 * Makes the sentence for a fault.
 * @param {import('./sides.mjs').Fault} fault
 */
export const faultNode = ({ word, says }) => node('p.spotfault', ...word ? [node('mark', word), ' '] : [], says);

/**
 * Sentences for the refusals of the program.
 * @type {{ [name: string]: string }}
 */
const REFUSALS = {
    UnknownWord: 'The first word is no game.',
    BadCard: 'A word is no card.',
    BadRange: 'A range has an item that there isn\'t, or the weights of a hand add up to more than 100.',
    TwiceCard: 'A card is there twice.',
    HandSize: 'A hand has too few or too many cards for the game.',
    BoardSize: 'A board has 3, 4, or 5 cards.',
    PlayerCount: 'A spot has 2 to 10 players, and ranges have 2 to 4.',
    DeckShort: 'Fewer cards are left in the deck than the hands and the board need.',
    NoChoice: 'There is no choice of hands: each shares a card with another hand, the board, or the dead cards.'
};

/**
 * Returns the sentence for a refusal of the program.
 * @param {string} refusal  its words
 */
export const refusalSentence = (refusal) =>
    REFUSALS[refusal.split(' ')[0]] || `The program refuses this line: ${refusal}.`;
