// The points of the graph: what a player won, would have won with average luck, and what they won with a showdown and
// without, summed up by hand, by day, or by session. x always rises.

import { sessions } from './clock.mjs';
import { MONEY, SHOWN } from './part.mjs';

/** @typedef {import('./hands.mjs').Hands} Hands */
/** @typedef {import('./played.mjs').Played} Played */

export const LINES = ['won', 'all-in adjusted', 'showdown winnings', 'non-showdown winnings'];

/**
 * The points of a graph in columns: x, the value of each line there, the place of its last hand, and how many hands it
 * has. `without` counts the hands that are in no point.
 * @typedef {{ count: number, x: Float64Array, lines: Float64Array[], at: Uint32Array, hands: Uint32Array,
 *     without: number }} Series
 */

const DAY = 86400;

/**
 * Returns a point after each hand, or after the last hand of each day or session. Hands without a clock are in no day
 * and no session. The x of a day is its number since 1970.
 * @param {Hands} hands
 * @param {Played[]} played  in order
 * @param {string} by  hand, day, or session
 * @returns {Series}
 */
export const seriesOf = (hands, played, by) => {
    const { clock, net, even, marks, flags } = hands.columns, size = played.length;
    const of = played.length && flags[played[0].hand] & MONEY ? 100 : 1;
    const numbers = by === 'session' ? sessions(played.map(({ hand }) => clock[hand])) : [];
    const x = new Float64Array(size), lines = LINES.map(() => new Float64Array(size)), places = new Uint32Array(size),
          sizes = new Uint32Array(size);
    // a graph shows no more digits than these numbers have, and BigInt takes twice as long
    let won = 0, adjusted = 0, shown = 0, without = 0, count = 0;
    played.forEach(({ hand, row }, at) => {
        if (by !== 'hand' && Number.isNaN(clock[hand])) {
            without++;
            return;
        }
        const gain = Number(net[row]);
        won += gain;
        adjusted += Number(even[row]);
        if (marks[row] & SHOWN) shown += gain;
        const here = by === 'hand' ? at + 1 : by === 'day' ? Math.floor(clock[hand] / DAY) : numbers[at];
        // a later hand of a day or a session takes the place of the one before
        if (count && x[count - 1] === here) count--;
        else sizes[count] = 0;
        x[count] = here;
        places[count] = at;
        sizes[count]++;
        lines[0][count] = won / of;
        lines[1][count] = adjusted / of;
        lines[2][count] = shown / of;
        lines[3][count] = (won - shown) / of;
        count++;
    });
    return { count, x: x.subarray(0, count), lines: lines.map((it) => it.subarray(0, count)),
        at: places.subarray(0, count), hands: sizes.subarray(0, count), without };
};
