// All hands that were read, in columns that grow part by part. A hand is an index. A number that comes again counts
// once.

import { numberOf } from './ordering.mjs';
import { ACCEPTED, HAND_COLUMNS, ROW_COLUMNS, TEXT_COLUMNS } from './part.mjs';

/** @typedef {import('./part.mjs').Part} Part */

/**
 * A file that was read: its path in a dropped folder, or its name, and the file itself.
 * @typedef {{ path: string, file: File }} Source
 */

/**
 * The columns of a part, and for each hand its file, whether it is a copy of another hand, and its number, NaN if that
 * isn't exact.
 * @typedef {Omit<Part, 'numbers' | 'texts' | 'newlines' | 'owed'> & { file: Uint32Array, copy: Uint8Array,
 *     digits: Float64Array }} Columns
 */

const ROOM = 1 << 10;

/**
 * Returns a table of hands without a hand. `bulk` is at least the size of each sum of amounts of these hands, so sums
 * are exact in numbers while it is.
 */
export const noHands = () => {
    const kinds = { ...HAND_COLUMNS, file: Uint32Array, copy: Uint8Array, digits: Float64Array,
        first: Uint32Array, ...ROW_COLUMNS };
    // columns begin with different sizes, so that not all of them grow with one part
    const columns = Object.fromEntries(Object.entries(kinds).map(([it, kind], at, { length }) =>
        [it, new kind(Math.ceil(ROOM * 2 ** (at / length)))]));
    return {
        count: 0,
        rows: 0,
        again: 0,
        bulk: 0,
        columns: /** @type {Columns} */ (/** @type {any} */ (columns)),
        numbers: /** @type {string[]} */ ([]),
        texts: [''],
        ids: new Map([['', 0]]),
        sources: /** @type {Source[]} */ ([]),
        best: /** @type {Map<string, number>} */ (new Map()),
        owed: /** @type {Map<number, { name: string, amount: string }[]>} */ (new Map())
    };
};

/** @typedef {ReturnType<typeof noHands>} Hands */

/**
 * @param {Hands} hands
 * @param {string} text
 */
const idOf = (hands, text) => {
    let id = hands.ids.get(text);
    if (id === undefined) {
        id = hands.texts.push(text) - 1;
        hands.ids.set(text, id);
    }
    return id;
};

/**
 * Makes room for some values of some columns.
 * @param {Hands} hands
 * @param {string[]} names
 * @param {number} size
 */
const reserve = (hands, names, size) => {
    const columns = /** @type {any} */ (hands.columns);
    for (const name of names) {
        const column = columns[name];
        if (column.length >= size) continue;
        columns[name] = new column.constructor(Math.max(size, 2 * column.length));
        columns[name].set(column);
    }
};

/**
 * Whether hand a comes before hand b where both have one number: an accepted one first, and then by path and line,
 * because the browser lists files in any order.
 * @param {Hands} hands
 * @param {number} a
 * @param {number} b
 */
const isBetter = (hands, a, b) => {
    const { flags } = hands.columns, one = flags[a] & ACCEPTED, other = flags[b] & ACCEPTED;
    return one === other ? byPlace(hands, a, b) < 0 : one > other;
};

/**
 * Compares hands by the path of their file, and then by their line.
 * @param {Hands} hands
 * @param {number} a
 * @param {number} b
 */
export const byPlace = (hands, a, b) => {
    const { file, line } = hands.columns, one = hands.sources[file[a]].path, other = hands.sources[file[b]].path;
    return one === other ? file[a] - file[b] || line[a] - line[b] : one < other ? -1 : 1;
};

/**
 * Adds a part of a file to the hands.
 * @param {Hands} hands
 * @param {Part} part
 * @param {number} file  the index of its source
 * @param {number} lines  how many lines are before the part in its file
 * @param {number} bytes  how many bytes are before it
 */
export const addPart = (hands, part, file, lines, bytes) => {
    const { count, rows } = hands, more = part.numbers.length, moreRows = part.name.length;
    const handColumns = Object.keys(HAND_COLUMNS), rowColumns = Object.keys(ROW_COLUMNS);
    reserve(hands, [...handColumns, 'file', 'copy', 'digits'], count + more);
    reserve(hands, ['first'], count + more + 1);
    reserve(hands, rowColumns, rows + moreRows);
    const { columns } = hands, ids = part.texts.map((text) => idOf(hands, text));
    const [to, from] = /** @type {any[]} */ ([columns, part]);
    for (const it of handColumns) to[it].set(from[it], count);
    for (const it of rowColumns) to[it].set(from[it], rows);
    for (let at = rows; at < rows + moreRows; at++) columns.name[at] = ids[columns.name[at]];
    for (const amounts of [part.net, part.even, part.got, part.pot, part.rake])
        for (const it of amounts) hands.bulk += Math.abs(Number(it));
    for (const { hand, name, amount } of part.owed)
        hands.owed.set(count + hand, [...hands.owed.get(count + hand) || [], { name, amount }]);
    for (let at = 0; at < more; at++) {
        const hand = count + at;
        for (const it of TEXT_COLUMNS) to[it][hand] = ids[to[it][hand]];
        columns.line[hand] += lines;
        columns.start[hand] += bytes;
        columns.end[hand] += bytes;
        if (columns.departs[hand]) columns.departs[hand] += lines;
        columns.file[hand] = file;
        columns.first[hand] = rows + part.first[at];
        columns.digits[hand] = numberOf(part.numbers[at]);
        hands.numbers.push(part.numbers[at]);
        const other = hands.best.get(part.numbers[at]);
        const isFirst = other === undefined || isBetter(hands, hand, other);
        columns.copy[hand] = isFirst ? 0 : 1;
        if (other !== undefined) hands.again++;
        if (!isFirst) continue;
        if (other !== undefined) columns.copy[other] = 1;
        hands.best.set(part.numbers[at], hand);
    }
    hands.count = count + more;
    hands.rows = rows + moreRows;
    columns.first[hands.count] = hands.rows;
};
