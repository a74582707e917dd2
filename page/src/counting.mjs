// Lines of ranges counted on all workers, with the time that is left.

import { readAnswers } from './answers.mjs';
import { counted } from './progress.mjs';

/**
 * @typedef {{ size: number, stop: () => void, run: (message: any, moved?: ArrayBufferLike[]) =>
 *     Promise<{ status: number, report: Uint8Array }> }} Workers
 * Lines that a worker counts in one run, and how many runouts they have, each way to take a hand from each range.
 * @typedef {{ lines: string[], cost: number }} Job
 */

/** Runouts that a worker counts in a second: a first guess, and then as measured. */
const speed = { perSecond: 1.5e8, isMeasured: false };

/**
 * Returns the seconds that some runouts take.
 * @param {number} runouts
 * @param {number} workers
 */
export const secondsFor = (runouts, workers) => runouts / speed.perSecond / workers;

/**
 * Units of time: their seconds, up to how many of them are said, and their name.
 * @type {[number, number, string][]}
 */
const STEPS = [
    [1, 90, 's'], [60, 90, 'minutes'], [3600, 48, 'hours'], [86400, 730, 'days'], [31557600, Infinity, 'years']
];

/**
 * Says how long something takes.
 * @param {number} seconds
 */
export const durationText = (seconds) => {
    const [size, , name] = STEPS.find(([unit, most]) => seconds / unit < most) || STEPS[4];
    const count = Math.max(1, Math.round(seconds / size));
    return `${counted(count)} ${count === 1 && name !== 's' ? name.slice(0, -1) : name}`;
};

/**
 * Counts the lines of some jobs, each on the next worker that is free. `done` has what the program answers to each line
 * of a job, in the order in which jobs end.
 * @template {Job} J
 * @param {Workers} workers
 * @param {Iterable<J>} jobs
 * @param {(job: J, reads: import('./answers.mjs').Read[]) => void} done
 */
export const countJobs = async (workers, jobs, done) => {
    const queue = jobs[Symbol.iterator](), encoder = new TextEncoder(), decoder = new TextDecoder();
    let isOver = false;
    const lane = async () => {
        for (let next = queue.next(); !isOver && !next.done; next = queue.next()) {
            const job = next.value, begun = performance.now();
            const { status, report } = await workers.run({
                mode: 'ranges', form: 'text', input: encoder.encode(job.lines.map((line) => `${line}\n`).join(''))
            });
            if (status > 1) throw new Error(`the program ended with status ${status}`);
            const reads = readAnswers(decoder.decode(report)), seconds = (performance.now() - begun) / 1000;
            if (reads.length !== job.lines.length) throw new Error('the program\'s answer is cut off');
            measure(job.cost / Math.max(seconds, 1e-3));
            done(job, reads);
        }
    };
    try {
        await Promise.all(Array.from({ length: workers.size }, lane));
    } finally {
        isOver = true;
    }
};

/**
 * Takes a measured speed in, the latest with most weight.
 * @param {number} perSecond
 */
const measure = (perSecond) => {
    speed.perSecond = speed.isMeasured ? speed.perSecond * 0.8 + perSecond * 0.2 : perSecond;
    speed.isMeasured = true;
};

/**
 * Follows how much of some runouts is counted, and returns the sentence that says so.
 * @param {number} all
 */
export const makeProgress = (all) => {
    const begun = performance.now();
    let done_ = 0;
    return (/** @type {number} */ more) => {
        done_ += more;
        const seconds = (performance.now() - begun) / 1000, left = seconds * (all - done_) / Math.max(done_, 1);
        const percent = Math.floor(100 * done_ / all);
        return `${percent}%${done_ < all ? `, about ${durationText(left)} left` : ''}`;
    };
};
