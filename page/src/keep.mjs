// The program's own reports of all files, to keep.

import { piecesOf } from './pieces.mjs';
import { STATUS } from './statuses.mjs';
import { numbered } from './texts.mjs';

/** @typedef {import('./hands.mjs').Source} Source */

/**
 * Returns the report of each piece of each file, in order. Together they are the reports of the files, one after the
 * other.
 * @param {ReturnType<typeof import('./pool.mjs').makePool>} pool
 * @param {Source[]} sources
 * @param {string} mode
 * @param {string} form
 * @param {(bytes: number) => void} onPiece
 * @param {() => boolean} isStopped
 */
export const reportOf = async (pool, sources, mode, form, onPiece, isStopped) => {
    /** @type {Promise<Uint8Array>[]} */
    const reports = [];
    for (const { file } of sources) {
        const read = async (/** @type {number} */ from, /** @type {number} */ to) =>
            new Uint8Array(await file.slice(from, to).arrayBuffer());
        let line = 1;
        for await (const { bytes } of piecesOf(read, file.size)) {
            if (isStopped()) throw new Error('stopped');
            const input = numbered(bytes, line), { length } = bytes;
            for (let at = -1; (at = bytes.indexOf(10, at + 1)) >= 0;) line++;
            const report = pool.run({ mode, form, input }, [input.buffer]).then(({ status, report: it }) => {
                if (status > 1) throw new Error(STATUS[status] || `the program ended with status ${status}`);
                onPiece(length);
                return it;
            });
            report.catch(() => {});
            reports.push(report);
            if (reports.length >= 2 * pool.size) await reports[reports.length - 2 * pool.size];
        }
    }
    const all = await Promise.all(reports);
    if (isStopped()) throw new Error('stopped');
    return all;
};
