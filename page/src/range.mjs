// A range of starting hands as cells of a grid of 13 by 13: pairs on the diagonal, hands of one suit above it, of two
// below. Reads and writes the items of a range in the words of the mode `ranges`.

import { RANKS } from './ranks.mjs';

const PAIR = 6, SUITED = 4, OFFSUIT = 12;

/**
 * @param {number} row
 * @param {number} column
 */
const nameAt = (row, column) => row === column ? RANKS[row] + RANKS[row]
    : row < column ? `${RANKS[row]}${RANKS[column]}s` : `${RANKS[column]}${RANKS[row]}o`;
/** The names of the cells, by row and column. */
export const NAMES = [...RANKS].map((high, row) => [...RANKS].map((low, column) => nameAt(row, column)));
const sizeOf = (/** @type {string} */ name) => name.length === 2 ? PAIR : name[2] === 's' ? SUITED : OFFSUIT;

/**
 * Returns the cells that an item without its weight names, or null if it names other hands, as two cards do.
 * @param {string} item
 * @returns {string[] | null}
 */
const cellsOf = (item) => {
    const it = /^([AKQJT2-9])([AKQJT2-9])([so]?)(\+?)$/.exec(item);
    if (!it) return null;
    const [, high, low, suits, more] = it, top = RANKS.indexOf(high), from = RANKS.indexOf(low);
    if (top > from || top === from && suits) return null;
    if (top === from) return more ? [...RANKS].slice(0, top + 1).map((rank) => rank + rank) : [high + low];
    const lows = more ? RANKS.slice(top + 1, from + 1) : low;
    return [...lows].flatMap((rank) => suits ? [high + rank + suits] : [`${high}${rank}s`, `${high}${rank}o`]);
};

/**
 * A range: the cells that are chosen, with their weights, and its other items, which stay as they are.
 * @typedef {{ cells: Map<string, number>, others: string[] }} Range
 */

/**
 * @param {string} range
 * @returns {Range}
 */
export const readRange = (range) => {
    /** @type {Map<string, number>} */
    const cells = new Map(), others = [];
    for (const item of range.split(',').filter(Boolean)) {
        const [text, weight = '1'] = item.split(':'), named = cellsOf(text);
        // a cell that is named twice weighs twice, which the grid doesn't show
        if (named && named.every((it) => !cells.has(it))) named.forEach((it) => cells.set(it, Number(weight)));
        else others.push(item);
    }
    return { cells, others };
};

const weightOf = (/** @type {string} */ item) => Number(item.split(':')[1] || 1);

/**
 * Returns the weight that is shown as a full cell: 100 if all weights are such percents as the grid writes, and
 * otherwise the greatest.
 * @param {Range} range
 */
export const fullOf = ({ cells, others }) => {
    const weights = [...cells.values(), ...others.map(weightOf)];
    return weights.length && weights.every((it) => it % 25 === 0) ? 100 : Math.max(1, ...weights);
};

/**
 * Returns a range in which some cells have a weight, in percent of a full cell, or aren't chosen if it is 0. A weight
 * below 100 has all weights written in percent.
 * @param {Range} range
 * @param {string[]} names
 * @param {number} percent
 * @returns {Range}
 */
export const withCells = (range, names, percent) => {
    const full = fullOf(range), scale = percent > 0 && percent < 100 ? 100 : full;
    const scaled = (/** @type {number} */ weight) => Math.max(1, Math.round(weight * scale / full));
    const cells = new Map([...range.cells].map(([name, weight]) => [name, scaled(weight)]));
    for (const name of names) percent ? cells.set(name, percent < 100 ? percent : scale) : cells.delete(name);
    const others =
        range.others.map((item) => scale === full ? item : `${item.split(':')[0]}:${scaled(weightOf(item))}`);
    // where all are full, no weight is needed
    const isEven = scale === 100 && [...cells.values(), ...others.map(weightOf)].every((it) => it === 100);
    if (!isEven) return { cells, others };
    return { cells: new Map([...cells.keys()].map((name) => [name, 1])), others: others.map((it) => it.split(':')[0]) };
};

/**
 * Returns items for some of a row of names. If a run begins at the first, one item with a plus says it.
 * @param {Set<string>} lows
 * @param {string[]} all
 * @param {string} end
 */
const items = (lows, all, end) => {
    const parts = [];
    let count = 0;
    while (count < all.length && lows.has(all[count])) count++;
    if (count > 1) parts.push(`${all[count - 1]}${end}+`);
    else if (count === 1) parts.push(`${all[0]}${end}`);
    for (const low of all.slice(count)) if (lows.has(low)) parts.push(`${low}${end}`);
    return parts;
};

/**
 * Returns the items of some cells, with pluses if they say the same.
 * @param {Set<string>} cells
 */
const itemsOf = (cells) => {
    const pairs = [...RANKS].map((rank) => rank + rank),
          parts = items(new Set(pairs.filter((it) => cells.has(it))), pairs, '');
    [...RANKS].forEach((high, top) => {
        const lows = [...RANKS.slice(top + 1)].map((low) => high + low);
        const suited = new Set(lows.filter((it) => cells.has(`${it}s`))),
              offsuit = new Set(lows.filter((it) => cells.has(`${it}o`)));
        if (suited.size && suited.size === offsuit.size && [...suited].every((it) => offsuit.has(it)))
            parts.push(...items(suited, lows, ''));
        else parts.push(...items(suited, lows, 's'), ...items(offsuit, lows, 'o'));
    });
    return parts;
};

/**
 * Returns a range in the words of the program: the greatest weights first, and the other items last.
 * @param {Range} range
 */
export const writtenRange = ({ cells, others }) => {
    const weights = [...new Set(cells.values())].sort((a, b) => b - a);
    const parts = weights.flatMap((weight) => {
        const names = itemsOf(new Set([...cells.keys()].filter((name) => cells.get(name) === weight)));
        return weight === 1 ? names : names.map((name) => `${name}:${weight}`);
    });
    return [...parts, ...others].join(',');
};

/**
 * Returns how many hands the cells of a range have.
 * @param {Range} range
 */
export const countOf = ({ cells }) => [...cells.keys()].reduce((sum, name) => sum + sizeOf(name), 0);
