// The equity of each cell of the grid against one range or two, cell by cell.

import { fixed, shareOf } from './answers.mjs';
import { combosOf } from './combos.mjs';
import { NAMES } from './range.mjs';
import { addPart, checkSum, LIMIT, noAnswer, planOf, runoutsOf } from './wide.mjs';

/** A job has at most so many runouts, so that cells appear one after the other, and a stop is at once. */
const MOST = 6e7;

/**
 * @typedef {import('./wide.mjs').Spot} Spot
 * The equity of a cell: in percent, and from 0 to 1. A cell without a choice has no part.
 * @typedef {{ text: string, part: number | null }} Warmth
 * @typedef {{ lines: string[], cost: number, cells: { name: string, count: number }[] }} HeatJob
 */

/**
 * Plans the cells against the ranges of a spot, of which there are one or two. The jobs have parts of cells, in the
 * order of the grid.
 * @param {Spot} spot
 */
export const planHeat = (spot) => {
    const { sides } = spot, gone = [...spot.board, ...spot.dead];
    const runouts = runoutsOf({ ...spot, sides: [sides[0], ...sides] });
    const size = sides.reduce((product, range) => product * combosOf(range, gone).length, 1);
    const cells = NAMES.flat().map((name) => ({ name, ways: combosOf(name, gone).length * size }));
    const jobs = function* () {
        /** @type {HeatJob} */
        let job = { lines: [], cost: 0, cells: [] };
        for (const { name, ways } of cells) {
            const plan = ways ? planOf({ ...spot, sides: [name, ...sides] }, 1, Math.min(LIMIT, MOST)) : null;
            for (const part of plan ? plan.parts() : []) {
                const cost = part.ways * runouts;
                if (job.cost && job.cost + cost > MOST) {
                    yield job;
                    job = { lines: [], cost: 0, cells: [] };
                }
                job.lines.push(part.line);
                job.cost += cost;
                const last = job.cells[job.cells.length - 1];
                if (last && last.name === name) last.count++;
                else job.cells.push({ name, count: 1 });
            }
        }
        if (job.lines.length) yield job;
    };
    return { cost: cells.reduce((sum, { ways }) => sum + ways * runouts, 0), jobs };
};

/**
 * Adds up the parts of each cell. Returns a function that takes a job with its answers, and returns the cells that are
 * complete.
 * @param {Spot} spot
 */
export const makeHeat = (spot) => {
    const planFor = (/** @type {string} */ name) =>
        planOf({ ...spot, sides: [name, ...spot.sides] }, 1, Math.min(LIMIT, MOST));
    /** @type {Map<string, { plan: import('./wide.mjs').Plan, sum: import('./answers.mjs').Answer, left: number }>} */
    const open = new Map();
    return (/** @type {HeatJob} */ job, /** @type {import('./answers.mjs').Read[]} */ reads) => {
        /** @type {Map<string, Warmth>} */
        const whole = new Map();
        let at = 0;
        for (const { name, count } of job.cells) {
            const plan = open.get(name)?.plan || planFor(name);
            const it = open.get(name) || { plan, sum: noAnswer(plan), left: plan.count };
            open.set(name, it);
            for (const read of reads.slice(at, at + count)) addPart(it.sum, read);
            at += count;
            it.left -= count;
            if (it.left) continue;
            checkSum(it.sum, plan);
            const share = it.sum.total ? shareOf(it.sum, 0) : null;
            const part = share && Number(share[0]) / Number(share[1]);
            whole.set(name, { text: share ? fixed([share[0] * 100n, share[1]], 0) : '–', part });
        }
        return whole;
    };
};
