// Finds hands by words: three or more digits of a number, a name, a table, cards, or a class of starting hands as AKs.

import { cardsIn, codeOf, codesIn, rankOf, suitOf } from './cards.mjs';
import { NO_ROW } from './played.mjs';

/** @typedef {import('./hands.mjs').Hands} Hands */
/** @typedef {import('./played.mjs').Played} Played */

const CARDS = /^(?:[2-9tjqka][cdhs])+$/, CLASS = /^([2-9tjqka])([2-9tjqka])([so]?)$/, RANKS = '23456789tjqka';

/**
 * Whether two cards are of a class.
 * @param {number[]} codes
 * @param {RegExpExecArray} wanted
 */
const isLike = (codes, [, high, low, suits]) => {
    if (codes.length !== 2) return false;
    const [a, b] = codes.map(rankOf), one = RANKS.indexOf(high), other = RANKS.indexOf(low);
    if (!(a === one && b === other || a === other && b === one)) return false;
    return !suits || (suitOf(codes[0]) === suitOf(codes[1])) === (suits === 's');
};

/**
 * Returns a function that says whether a hand has a word.
 * @param {Hands} hands
 * @param {string} word  in small letters
 * @returns {(entry: Played) => boolean}
 */
const finder = (hands, word) => {
    const { columns, numbers, texts } = hands, { first, name, table, board, cards, tournament } = columns;
    const isText = Uint8Array.from(texts, (text) => text.toLowerCase().includes(word) ? 1 : 0);
    const wanted = CARDS.test(word)
        ? cardsIn(word.replace(/[tjqka]/g, (it) => it.toUpperCase())).map(codeOf)
        : null;
    const like = CLASS.exec(word), isNumber = /^[0-9]{3,}$/.test(word);
    return ({ hand, row }) => {
        if (isNumber && (numbers[hand].includes(word) || isText[tournament[hand]])) return true;
        if (isText[table[hand]]) return true;
        const from = row === NO_ROW ? first[hand] : row, to = row === NO_ROW ? first[hand + 1] : row + 1;
        for (let at = first[hand]; at < first[hand + 1]; at++) if (isText[name[at]]) return true;
        if (like) for (let at = from; at < to; at++) if (cards[at] && isLike(codesIn(cards[at]), like)) return true;
        if (!wanted) return false;
        const known = codesIn(board[hand]);
        for (let at = from; at < to; at++) if (cards[at]) known.push(...codesIn(cards[at]));
        return wanted.every((it) => known.includes(it));
    };
};

/**
 * Returns the hands that have each of some words.
 * @param {Hands} hands
 * @param {Played[]} entries
 * @param {string} text
 */
export const found = (hands, entries, text) => {
    const words = text.trim().toLowerCase().split(/\s+/).filter(Boolean);
    return words.reduce((left, word) => left.filter(finder(hands, word)), entries);
};
