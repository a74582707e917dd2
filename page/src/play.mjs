// Cards as they are drawn: suits are paths, because fonts disagree about their characters. A hidden letter behind each
// makes copied cards read As, as the program has them, and a screen reader hears "ace of spades".

import { spoken } from './cards.mjs';
import { having, node, shape } from './dom.mjs';

/** @type {{ [suit: string]: string }} */
const PATHS = {
    s: 'M8 1.3C6.3 4.5 1.9 6.7 1.9 10c0 1.8 1.4 3.1 3.1 3.1.9 0 1.7-.4 2.3-1-.1 1.2-.7 2-1.6 2.7h4.6c-.9-.7-1.5-1.5' +
        '-1.6-2.7.6.6 1.4 1 2.3 1 1.7 0 3.1-1.3 3.1-3.1 0-3.3-4.4-5.5-6.1-8.7z',
    h: 'M8 14.4C6.4 12 1.8 9.6 1.8 5.7 1.8 3.6 3.3 2 5.2 2 6.4 2 7.4 2.6 8 3.7 8.6 2.6 9.6 2 10.8 2c1.9 0 3.4 1.6 3.4' +
        ' 3.7 0 3.9-4.6 6.3-6.2 8.7z',
    d: 'M8 1.2 13.2 8 8 14.8 2.8 8z',
    c: 'M8 1.3a3.1 3.1 0 0 0-2.45 5A3.2 3.2 0 1 0 7.35 11.2C7.25 12.9 6.65 14 5.6 14.8h4.8c-1.05-.8-1.65-1.9-1.75-3.6' +
        'A3.2 3.2 0 1 0 10.45 6.3 3.1 3.1 0 0 0 8 1.3z'
};

const suitNodes = (/** @type {string} */ suit) => [
    shape('svg', { viewBox: '0 0 16 16', 'aria-hidden': 'true', class: 'suit' }, shape('path', { d: PATHS[suit] })),
    node('span.vh', suit)
];

/**
 * Returns cards as they stand in a line.
 * @param {string[]} cards
 */
export const inLine = (cards) => cards.map((card) => having(
    node(`span.c.suit-${card[1]}`, card[0], ...suitNodes(card[1])), { role: 'img', 'aria-label': spoken(card) }));

/**
 * Returns a card as it lies on a table.
 * @param {string} card
 * @param {string} [classes]  with points: .small.new
 */
export const face = (card, classes = '') => having(
    node(`span.face.suit-${card[1]}${classes}`, node('b', card[0]), ...suitNodes(card[1])),
    { role: 'img', 'aria-label': spoken(card) });
