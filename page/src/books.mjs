// Tables for a spreadsheet: a heading, one row for each hand of each player, or the sums as they are shown.

import { timeOf } from './clock.mjs';
import { ACCEPTED, MONEY, UNKNOWN } from './part.mjs';
import { written } from './reports.mjs';

/** Without the mark Excel takes UTF-8 for another encoding. */
const MARK = '\uFEFF';

/**
 * Returns a cell. A text that a spreadsheet would take for a formula gets an apostrophe in front.
 * @param {string} text
 */
const textCell = (text) => quoted(/^[=+\-@\t\r]/.test(text) ? `'${text}` : text);

/** @param {string} text */
const quoted = (text) => /[",\r\n]/.test(text) ? `"${text.replaceAll('"', '""')}"` : text;

/** @param {string[]} cells */
const line = (cells) => `${cells.join(',')}\r\n`;

export const HEADING = ['time', 'hand', 'game', 'stakes', 'unit', 'table', 'name', 'net', 'adjusted', 'luck'];

/**
 * Yields the results of all accepted hands as pieces of a table, in order. Adjusted and luck are empty if they are
 * unknown.
 * @param {import('./hands.mjs').Hands} hands
 * @param {Uint32Array} order
 * @returns {Generator<string>}
 */
export function* resultsTable(hands, order) {
    const { columns, texts, numbers } = hands, PIECE = 1000;
    let piece = MARK + line(HEADING), count = 0;
    for (const hand of order) {
        if (!(columns.flags[hand] & ACCEPTED)) continue;
        const isMoney = (columns.flags[hand] & MONEY) !== 0, { net: nets, even: evens } = columns;
        const front = [
            timeOf(columns.clock[hand]), numbers[hand], texts[columns.game[hand]], quoted(texts[columns.stakes[hand]]),
            texts[columns.unit[hand]], textCell(texts[columns.table[hand]])
        ];
        for (let row = columns.first[hand]; row < columns.first[hand + 1]; row++) {
            const net = nets[row], even = evens[row], isUnknown = (columns.marks[row] & UNKNOWN) !== 0;
            piece += line([
                ...front, textCell(texts[columns.name[row]]), written(net, isMoney),
                isUnknown ? '' : written(even, isMoney), isUnknown ? '' : written(net - even, isMoney)
            ]);
        }
        if (++count % PIECE === 0) {
            yield piece;
            piece = '';
        }
    }
    yield piece;
}

/**
 * Returns a table as it is shown, as a text for a spreadsheet.
 * @param {string[]} heads
 * @param {string[][]} rows  the first cell of each is a text, the others are numbers
 */
export const shownTable = (heads, rows) => MARK +
    [heads.map(textCell), ...rows.map(([first, ...rest]) => [textCell(first), ...rest.map(quoted)])].map(line).join('');
