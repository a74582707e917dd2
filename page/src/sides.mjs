// The words of a typed line: sorted into the hands, the board, and the dead cards, and read as hands and ranges.

import { GAME_NAMES, GAMES, saysSize, SIZES, sizeText } from './games.mjs';
import { readItem, writtenItems } from './items.mjs';
import { cardsOfWord } from './ranks.mjs';

/**
 * What is wrong: a word of the line, which may be empty, and a sentence that goes on after it.
 * @typedef {{ word: string, says: string }} Fault
 * A player has a hand of cards, or a range in the words of the program.
 * @typedef {{ cards: string[] | null, range: string }} Side
 * @typedef {{ word: string, cards: string[] | null, items: import('./items.mjs').Item[] }} Word
 * The words of a player, with commas between the entries.
 * @typedef {Word[][]} Entries
 * @typedef {{ game: string, players: Entries[], board: string[], dead: string[] }} Parts
 */

const AGAINST = ['-', 'vs', 'vs.', 'v', 'v.', 'versus', 'against', '|'];
const BOARD = ['--', 'on', '@', 'board', 'flop', 'turn', 'river'], DEAD = ['/', 'dead', 'folded', 'without'];
const MARKS = [...AGAINST, ...BOARD, ...DEAD];

const SAYS_CARD = 'is no card. A card is a rank and a suit, such as Ah, Td, or 2c.';
const SAYS_GAME = 'is neither a game, nor a card, nor a range. The games are holdem, omaha, omaha8, stud, stud8, ' +
    'razz, draw5, lowball27, and triple27.';
/** @type {{ [place: string]: string }} */
const SAYS_MARK = {
    board: 'can\'t follow the board. The hands come first, then the board, and then the dead cards.',
    dead: 'can\'t follow the dead cards, which come last.'
};

const plain = (/** @type {string} */ word) => word.toLowerCase().replace(/:$/, '');

/**
 * Reads a word of the hands: cards, an item, or several of them with hyphens between.
 * @param {string} word
 * @returns {{ words: Word[], fault?: undefined } | { words?: undefined, fault: Fault }}
 */
const readWord = (word) => {
    const cards = cardsOfWord(word);
    if (cards) return { words: [{ word, cards, items: [] }] };
    const { items, says = '' } = readItem(word);
    if (items) return { words: [{ word, cards: null, items }] };
    const words = [], parts = word.split('-').filter(Boolean);
    for (const part of parts) {
        const its = cardsOfWord(part), item = its ? null : readItem(part);
        if (item && !item.items) return { fault: parts.length > 1 ? { word: part, says: item.says } : { word, says } };
        words.push({ word: part, cards: its, items: item && item.items || [] });
    }
    // two hands with a hyphen and no blanks; of two ranges it looks like a run
    return words.length > 1 && words.every((it) => it.cards) ? { words } : { fault: { word, says } };
};

/**
 * Whether a first word that can't be read looks like the name of a game.
 * @param {string} word
 */
const looksLikeGame = (word) => /^[a-z'][a-z0-9'-]{2,}$/i.test(word) && !/^[2-9tjqka][2-9tjqkacdhsx]/i.test(word);

/**
 * Sorts the words of a line into hands, board, and dead cards.
 * @param {string[]} words
 * @returns {{ parts: Parts, fault?: undefined } | { parts?: undefined, fault: Fault }}
 */
export const partsOf = (words) => {
    /** @type {Parts} */
    const parts = { game: 'holdem', players: [[[]]], board: [], dead: [] };
    const { players } = parts;
    let place = 'hands', first = 0;
    while (first < 2 && first < words.length && GAMES[plain(words[first])]) parts.game = GAMES[plain(words[first++])];
    for (const [index, word] of words.slice(first).entries()) {
        const mark = plain(word);
        if (place === 'hands' && AGAINST.includes(mark)) players.push([[]]);
        else if (BOARD.includes(mark) && (place === 'hands' || place === 'board' && mark !== '--')) place = 'board';
        else if (DEAD.includes(mark) && place !== 'dead') place = 'dead';
        else if (word === ',' && place === 'hands') players[players.length - 1].push([]);
        else if (word !== ',' && place !== 'hands') {
            const cards = cardsOfWord(word);
            if (!cards) return { fault: { word, says: MARKS.includes(mark) ? SAYS_MARK[place] : SAYS_CARD } };
            (place === 'board' ? parts.board : parts.dead).push(...cards);
        } else if (word !== ',') {
            const read = readWord(word);
            if (!read.words)
                return { fault: index + first === 0 && looksLikeGame(word) ? { word, says: SAYS_GAME } : read.fault };
            read.words.forEach((it, at) => {
                if (at) players.push([[]]);
                const entries = players[players.length - 1];
                entries[entries.length - 1].push(it);
            });
        }
    }
    return { parts };
};

/**
 * Deals words without a mark between the players: so many cards to each, or a range.
 * @param {Word[]} words
 * @param {number} size
 */
const dealt = (words, size) => {
    /** @type {Entries[]} */
    const players = [];
    let open = 0;
    for (const it of words) {
        const { cards } = it, count = cards ? cards.length : 0;
        if (cards && !open && count > size && count % size === 0)
            for (let at = 0; at < count; at += size) {
                const hand = cards.slice(at, at + size);
                players.push([[{ word: hand.join(''), cards: hand, items: [] }]]);
            }
        else if (open && count && open + count <= size) {
            players[players.length - 1][0].push(it);
            open = (open + count) % size;
        } else {
            players.push([[it]]);
            open = count < size ? count : 0;
        }
    }
    return players;
};

/**
 * Splits the words of one player into players, if no mark is there, and takes the board from the end of the hands.
 * @param {Parts} parts
 */
export const splitPlayers = (parts) => {
    const { game, players, board } = parts, [least, most] = SIZES[game];
    const last = players[players.length - 1], words = last[last.length - 1], word = words[words.length - 1];
    const isAlone = players.length === 1 && last.length === 1 && words.length > 1;
    const canDeal = players.length === 1 && last.length === 1 && least === most;
    const isBoard = game === 'holdem' && !board.length && word && word.cards && word.cards.length >= 3 &&
        word.cards.length <= 5 && words.length > 1 && (!isAlone || dealt(words.slice(0, -1), most).length > 1);
    if (isBoard) {
        board.push(.../** @type {string[]} */ (word.cards));
        words.pop();
    }
    if (canDeal && words.length) parts.players = dealt(words, most);
};

/**
 * Returns the hand or the range of a player.
 * @param {Entries} entries
 * @param {string} game
 * @returns {{ side: Side, fault?: undefined } | { side?: undefined, fault: Fault }}
 */
export const sideOf = (entries, game) => {
    const filled = entries.filter((it) => it.length), words = filled.flat(), [least, most] = SIZES[game];
    const textOf = (/** @type {Word[]} */ some) => some.map(({ word }) => word).join(' ');
    const cardsOf = (/** @type {Word[]} */ some) => some.flatMap(({ cards }) => cards || []);
    const all = cardsOf(words), hasCards = words.every(({ cards }) => cards);
    if (hasCards && filled.length < 2 && (!all.length || all.length >= least && all.length <= most))
        return { side: { cards: all, range: all.join('') } };
    if (hasCards && (filled.length < 2 || game !== 'holdem'))
        return { fault: { word: textOf(words), says: saysSize(all.length, game) } };
    if (game !== 'holdem')
        return {
            fault: {
                word: textOf(words.filter(({ cards }) => !cards)),
                says: `is a range, and ranges are read in Hold’em only. A hand of ${GAME_NAMES[game]} has ${
                    sizeText(game)}.`
            }
        };
    /** @type {import('./items.mjs').Item[]} */
    const items = [];
    for (const entry of filled) {
        // cards with a blank between are a hand
        const hands = entry.every(({ cards }) => cards && cards.length === 1) ? [cardsOf(entry)] : [];
        for (const { cards, items: its } of hands.length ? [] : entry) cards ? hands.push(cards) : items.push(...its);
        const wrong = hands.find((hand) => hand.length !== 2);
        if (wrong) return { fault: { word: wrong.join(' '), says: saysSize(wrong.length, game) } };
        items.push(...hands.map((hand) => ({ text: hand.join(''), weight: 1 })));
    }
    const range = writtenItems(items);
    return range === null
        ? { fault: { word: textOf(words), says: 'has weights whose ratios no whole numbers from 1 to 100 have.' } }
        : { side: { cards: null, range } };
};
