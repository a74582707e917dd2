// A line as people type it, as a line of the program. See `sides.mjs` for its words.

import { GAME_NAMES, HAS_BOARD, SIZES } from './games.mjs';
import { spokenCard } from './ranks.mjs';
import { partsOf, sideOf, splitPlayers } from './sides.mjs';

/**
 * @typedef {import('./sides.mjs').Fault} Fault
 * @typedef {import('./sides.mjs').Side} Side
 * What was understood: the hands of the players, and the line of the program in one of its modes. The line is empty if
 * there is a fault.
 * @typedef {{ game: string, mode: 'spots' | 'ranges', sides: Side[], board: string[], dead: string[], line: string,
 *     isEmpty: boolean, fault: Fault | null }} Typed
 */

/** The most players of a spot, and of a line of ranges. */
const MOST = { spots: 10, ranges: 4 };

const SAYS_MOST = { spots: 'Hands have at most 10.', ranges: 'Ranges have at most 4.' };
const SAYS_ONE = 'One hand needs another to be compared with. Write vs and a second hand.';
const SAYS_ALONE = 'is one range, from one end to the other. Between two players, write vs, or a hyphen with blanks.';

/**
 * Splits a typed line into words. A comma is a word.
 * @param {string} typed
 */
const wordsOf = (typed) => typed
    .replace(/[♠♤]/g, 's').replace(/[♥♡]/g, 'h').replace(/[♦♢]/g, 'd').replace(/[♣♧]/g, 'c')
    .replace(/[\uFE0E\uFE0F]/g, '').replace(/[’`]/g, '\'').replace(/—/g, '--').replace(/[–−]/g, '-')
    .replace(/[[\](){}"“”]/g, ' ').replace(/[,;]/g, ' , ').replace(/--|[/|]/g, ' $& ')
    .split(/\s+/).filter(Boolean);

/**
 * Returns the first thing that is wrong with what was read, or null.
 * @param {Typed} it
 * @returns {Fault | null}
 */
const faultOf = ({ game, mode, sides, board, dead }) => {
    const known = mode === 'spots' ? [...sides.flatMap(({ cards }) => cards || []), ...board, ...dead]
        : [...board, ...dead];
    const twice = known.find((card, index) => known.indexOf(card) < index);
    if (twice) return { word: twice, says: `is there twice, and there is only one ${spokenCard(twice)} in the deck.` };
    if (board.length && !HAS_BOARD.includes(game))
        return { word: board.join(' '), says: `can't be a board, because ${GAME_NAMES[game]} has none.` };
    if (board.length && (board.length < 3 || board.length > 5))
        return {
            word: board.join(' '),
            says: `${board.length === 1 ? 'is 1 card' : `are ${board.length} cards`}. A board has 3, 4, or 5.`
        };
    const empty = SIZES[game][0] ? sides.findIndex(({ range }) => !range) : -1;
    if (sides.length < 2) return { word: '', says: SAYS_ONE };
    if (empty >= 0) return { word: '', says: `Player ${empty + 1} has no hand yet.` };
    if (sides.length > MOST[mode])
        return { word: '', says: `There are ${sides.length} players. ${SAYS_MOST[mode]}` };
    return null;
};

/**
 * Returns the line of the program.
 * @param {{ game: string, mode: 'spots' | 'ranges', sides: Side[], board: string[], dead: string[] }} it
 */
export const writtenLine = ({ game, mode, sides, board, dead }) => {
    const hands = sides.map(({ cards, range }) => mode === 'spots' && cards ? cards.join(' ') : range);
    return [game, hands.join(' - '), ...board.length ? ['--', ...board] : [], ...dead.length ? ['/', ...dead] : []]
        .filter(Boolean).join(' ').replace(/ +/g, ' ');
};

/**
 * Reads a line as people type it.
 * @param {string} text
 * @returns {Typed}
 */
export const readTyped = (text) => {
    const words = wordsOf(text);
    /** @type {Typed} */
    const it = {
        game: 'holdem', mode: 'spots', sides: [], board: [], dead: [], line: '', isEmpty: !words.length, fault: null
    };
    if (it.isEmpty) return it;
    const { parts, fault } = partsOf(words);
    if (!parts) return { ...it, fault };
    splitPlayers(parts);
    it.game = parts.game;
    it.board = parts.board;
    it.dead = parts.dead;
    for (const entries of parts.players) {
        const read = sideOf(entries, parts.game);
        if (!read.side) return { ...it, sides: [], fault: read.fault };
        it.sides.push(read.side);
    }
    it.mode = it.sides.every(({ cards }) => cards) ? 'spots' : 'ranges';
    const run = it.sides.length < 2 && words.find((word) => /^[^-]+-[^-]+$/.test(word));
    it.fault = run ? { word: run, says: SAYS_ALONE } : faultOf(it);
    if (!it.fault) it.line = writtenLine(it);
    return it;
};
