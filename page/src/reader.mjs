// Reads files into hands, by all workers. What comes while others are read waits its turn, and nothing is lost in
// silence.

import { addPart } from './hands.mjs';
import { LOOKED_AT, reasonOf } from './kinds.mjs';
import { piecesOf } from './pieces.mjs';
import { steps } from './steps.mjs';

/** @typedef {import('./hands.mjs').Hands} Hands */
/** @typedef {import('./hands.mjs').Source} Source */
/** @typedef {ReturnType<typeof import('./pool.mjs').makePool>} Pool */

/**
 * A file without a hand, or one that wasn't read to its end, and why.
 * @typedef {{ path: string, reason: string, isFailed: boolean }} Missed
 */

/**
 * How far the reading is. Bytes and files are those of all drops since nothing was left to read.
 * @typedef {{ isReading: boolean, isStopped: boolean, files: number, filesDone: number, bytes: number, bytesDone:
 * number, began: number, missed: Missed[] }} Reading
 */

/**
 * Reads a file and adds its hands. Pieces are judged side by side, and added in their order, because lines are counted
 * over all of them.
 * @param {Hands} hands
 * @param {Source} source
 * @param {Pool} pool
 * @param {(bytes: number) => void} onPiece
 * @param {() => boolean} isStopped
 */
const readFile = async (hands, source, pool, onPiece, isStopped) => {
    const index = hands.sources.push(source) - 1;
    const read = async (/** @type {number} */ from, /** @type {number} */ to) =>
        new Uint8Array(await source.file.slice(from, to).arrayBuffer());
    /** @type {Promise<void>[]} */
    const added = [];
    let chain = Promise.resolve(), lines = 0, found = 0;
    for await (const { bytes, start } of piecesOf(read, source.file.size)) {
        if (isStopped()) break;
        const { length } = bytes, judged = pool.run({ part: bytes }, [bytes.buffer]);
        // a piece that fails is told where the chain waits for it
        judged.catch(() => {});
        chain = chain.then(async () => {
            const part = await judged;
            addPart(hands, part, index, lines, start);
            lines += part.newlines;
            found += part.numbers.length;
            onPiece(length);
        });
        chain.catch(() => {});
        added.push(chain);
        // not more pieces than the workers can begin, so memory stays small
        if (added.length >= 2 * pool.size) await added[added.length - 2 * pool.size];
    }
    await chain;
    if (isStopped()) throw new Error('stopped');
    return found ? '' : reasonOf(await read(0, Math.min(source.file.size, LOOKED_AT)));
};

/**
 * Makes a reader of files into some hands. `onChange` runs when more was read, and when nothing is left to read.
 * @param {Hands} hands
 * @param {Pool} pool
 * @param {(reading: Reading) => void} onChange
 */
export const makeReader = (hands, pool, onChange) => {
    /** @type {Source[]} */
    const queue = [];
    /** @type {Reading} */
    const reading =
        { isReading: false, isStopped: false, files: 0, filesDone: 0, bytes: 0, bytesDone: 0, began: 0, missed: [] };

    /** Resolves once the files that were added last are in the queue. */
    let queued = Promise.resolve(), stops = 0;

    /**
     * Puts files into the queue once their sizes are known, unless there was another stop. Chromium asks another
     * process for the size of each file that was chosen, so that is done in steps.
     * @param {Source[]} sources
     * @param {number} before  stops before the files came
     */
    const enqueue = async (sources, before) => {
        const step = steps();
        for (const { file } of sources) {
            await step();
            if (stops !== before) return;
            reading.bytes += file.size;
        }
        queue.push(...sources);
    };

    /** Reads the next file, until none is left. As many of these run as there are workers. */
    const go = async () => {
        for (let source; !reading.isStopped && (source = queue.shift());) {
            const { path } = source;
            let read = 0;
            const onPiece = (/** @type {number} */ bytes) => {
                read += bytes;
                reading.bytesDone += bytes;
                onChange(reading);
            };
            try {
                const reason = await readFile(hands, source, pool, onPiece, () => reading.isStopped);
                if (reason) reading.missed.push({ path, reason, isFailed: false });
            } catch (error) {
                const reason = error instanceof Error ? error.message : String(error);
                if (!reading.isStopped)
                    reading.missed.push({ path, reason: `not read to its end: ${reason}`, isFailed: true });
            }
            // what a file has left goes too, so the whole comes to its end
            reading.bytesDone += source.file.size - read;
            reading.filesDone++;
            onChange(reading);
        }
    };

    return {
        reading,
        /**
         * Reads some files, after those that are being read.
         * @param {Source[]} sources
         */
        add: async (sources) => {
            const isOther = reading.isReading;
            if (!isOther)
                Object.assign(reading, { isReading: true, isStopped: false, files: 0, filesDone: 0, bytes: 0,
                    bytesDone: 0, began: performance.now() });
            reading.files += sources.length;
            const before = stops;
            queued = queued.then(() => enqueue(sources, before));
            if (isOther) return;
            /** @type {Promise<void> | null} */
            let known = null;
            while (known !== queued && !reading.isStopped) {
                known = queued;
                await known;
                onChange(reading);
                await Promise.all(Array.from({ length: pool.size }, go));
            }
            reading.isReading = false;
            onChange(reading);
        },
        /** Stops, and forgets what waits. What was read stays. */
        stop: () => {
            if (!reading.isReading) return;
            reading.isStopped = true;
            stops++;
            queue.length = 0;
            pool.stop();
        },
    };
};
