// The package's calls.

import { chunksOf, piecesOf } from './cut.mjs';
import { equitiesOf } from './equities.mjs';
import { EquityError } from './errors.mjs';
import { run } from './program.mjs';
import { rowsOf } from './records.mjs';

export { EquityError, run };

/** @typedef {import('../equity').Row} Row */
/** @typedef {import('../equity').Hand} Hand */
/** @typedef {import('../equity').Spot} Spot */
/** @typedef {import('../equity').Ranges} Ranges */
/** @typedef {import('../equity').Side} Side */
/** @typedef {{ high: Side | null, low: Side | null, ev: string }} Counted */

const encoder = new TextEncoder();

/** The modes whose report is a list of hands. */
const MODES = ['audit', 'check', 'streets', 'results', 'settle'];

/**
 * @param {Row[]} rows
 * @returns {Counted[]}
 */
const countedHands = (rows) => {
    /** @type {Counted[]} */
    const hands = [];
    for (const { words: [, place, what, first, win, , , tie, , , lose] } of rows) {
        const at = Number(place) - 1;
        if (!hands[at]) hands[at] = { high: null, low: null, ev: '' };
        // a side's words: hand I SIDE win W PW tie T PT lose L PL; the last line's: hand I ev E
        if (what === 'ev') hands[at].ev = first;
        else hands[at][/** @type {'high' | 'low'} */ (what)] = { win: BigInt(win), tie: BigInt(tie), lose: BigInt(lose) };
    }
    return hands;
};

/**
 * Answers one line, or throws an EquityError.
 * @param {'spots' | 'ranges'} mode
 * @param {string} line
 * @returns {Promise<any>}
 */
const answer = async (mode, line) => {
    if (/[\n]/.test(line)) throw new EquityError('USAGE', 'a spot is one line');
    const [first, ...rest] = rowsOf((await run(mode, 'csv', encoder.encode(line))).report);
    if (!first) throw new EquityError('USAGE', 'the line has no word');
    const [, , game, ...said] = first.words;
    if (game === 'rejected') {
        const cause = said.slice(2).join(' ');
        throw new EquityError('REJECTED', `the line is rejected: ${cause}`, cause);
    }
    if (said[0] === 'refused') {
        const cause = said.slice(1).join(' ');
        throw new EquityError('REFUSED', `the line isn't counted: ${cause}`, cause);
    }
    // `runouts R`, or `choices C runouts R weight W`: words and numbers in turn
    const named = Object.fromEntries(said.map((it, at) => [it, said[at + 1]]).filter((_, at) => at % 2 === 0));
    const runouts = BigInt(named.runouts);
    const counted = countedHands(rest);
    const total = mode === 'ranges' ? runouts * BigInt(named.weight) : runouts;
    const equities = equitiesOf(counted, total);
    const hands = counted.map((it, at) => ({ ...it, equity: equities[at] }));
    return mode === 'ranges'
        ? { game, choices: BigInt(named.choices), runouts, weight: BigInt(named.weight), hands }
        : { game, runouts, hands };
};

/**
 * @param {string} line
 * @returns {Promise<Spot>}
 */
export const spot = (line) => answer('spots', line);

/**
 * @param {string} line
 * @returns {Promise<Ranges>}
 */
export const ranges = (line) => answer('ranges', line);

/**
 * Answers lines one after the other. A line without an answer yields its error.
 * @param {Iterable<string>} lines
 * @returns {AsyncIterableIterator<Spot | EquityError>}
 */
export async function* spots(lines) {
    for (const line of lines) {
        yield await spot(line).catch((error) => {
            if (error instanceof EquityError && (error.code === 'REJECTED' || error.code === 'REFUSED')) return error;
            throw error;
        });
    }
}

/**
 * The line of the whole input, in place of the line of a piece.
 * @param {Row} row
 * @param {bigint} before
 * @returns {Row}
 */
const placed = (row, before) => {
    if (row.words[2] !== 'rejected') return row;
    const words = [...row.words];
    words[4] = String(BigInt(words[4]) + before);
    return { ...row, words };
};

/**
 * @param {Row[]} rows
 * @returns {Hand}
 */
const handOf = (rows) => {
    const [, number, verdict, , line, ...cause] = rows[0].words;
    const accepted = verdict === 'accepted';
    return { number: BigInt(number), accepted, line: accepted ? null : BigInt(line), cause: accepted ? [] : cause, rows };
};

/**
 * Yields each hand with its records as soon as a piece of the input with whole hands is there.
 * @param {string} mode
 * @param {Uint8Array | Blob | ReadableStream<Uint8Array> | AsyncIterable<Uint8Array>} input
 * @returns {AsyncIterableIterator<Hand>}
 */
export async function* hands(mode, input) {
    if (!MODES.includes(mode)) throw new EquityError('USAGE', `the report of ${mode} isn't a list of hands`);
    for await (const { bytes, before } of piecesOf(chunksOf(input))) {
        /** @type {Row[]} */
        let rows = [];
        for (const row of rowsOf((await run(mode, 'csv', bytes)).report)) {
            if (row.words[0] === 'hand') {
                if (rows.length) yield handOf(rows);
                rows = [placed(row, before)];
            } else rows.push(row);
        }
        if (rows.length) yield handOf(rows);
    }
}
