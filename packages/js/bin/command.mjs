// The command line: `equity MODE [options] [FILE ..]`, with the program's statuses and reports.

import { EquityError, run } from 'equity';
import { readFileSync } from 'node:fs';
import { MODES, bytesOf, filesOf, lineSpans, readWords } from './files.mjs';
import { piecesOf } from '../src/cut.mjs';

const USAGE = 'usage: equity MODE [--workers N] [--format text|csv] [--seed S] [--hands H]';
const HELP = `type, for example: equity audit hands.txt
    The modes are: ${MODES.join(' ')}. FILE can be a folder; - is standard input.
    --lines prints which lines of the whole input each file has.`;
const { version } = JSON.parse(readFileSync(new URL('../package.json', import.meta.url), 'utf8'));
/** Bytes that the modes read which print at the end. */
const WHOLE_MOST = 256 << 20;

/** @type {Record<string, number>} */
const STATUSES = { USAGE: 2, TOO_LONG: 5, MEMORY: 6, NO_MODULE: 8, TRAP: 8 };

/** @param {Uint8Array | string} bytes */
const write = (bytes) => new Promise((done, failed) => {
    process.stdout.write(bytes, (error) => (error ? failed(error) : done(undefined)));
});

/**
 * The report of a piece, with the lines of the whole input.
 * @param {Uint8Array} report
 * @param {bigint} before
 */
const placed = (report, before) => {
    if (before === 0n) return report;
    const text = Buffer.from(report.buffer, report.byteOffset, report.length).toString('latin1');
    const line = /^(hand[ ,][0-9]+[ ,]rejected[ ,]line[ ,])([0-9]+)/gm;
    return Buffer.from(text.replace(line, (_, head, at) => head + String(BigInt(at) + before)), 'latin1');
};

/**
 * @param {string} mode
 * @param {'text' | 'csv'} form
 * @param {AsyncIterable<Uint8Array>} input
 */
const inPieces = async (mode, form, input) => {
    let status = 0;
    for await (const { bytes, before } of piecesOf(input)) {
        const ran = await run(/** @type {any} */ (mode), form, bytes);
        await write(placed(ran.report, before));
        status = Math.max(status, ran.status);
    }
    return status;
};

/**
 * @param {string} mode
 * @param {'text' | 'csv'} form
 * @param {AsyncIterable<Uint8Array>} input
 */
const atOnce = async (mode, form, input) => {
    const parts = [];
    let size = 0;
    for await (const chunk of input) {
        parts.push(chunk);
        size += chunk.length;
        if (size > WHOLE_MOST) throw new EquityError('MEMORY', `${mode} reads at most 256 MB here`);
    }
    const ran = await run(/** @type {any} */ (mode), form, Buffer.concat(parts));
    await write(ran.report);
    return ran.status;
};

/** @param {string} text */
const say = (text) => process.stderr.write(`equity: ${text}\n`);

/**
 * Runs the command of these words, and returns its exit status.
 * @param {string[]} given
 * @returns {Promise<number>}
 */
export const command = async (given) => {
    const words = readWords(given);
    if (!words || !words.mode) {
        await write(`${USAGE}\n`);
        if (given[0] === '--version') process.stderr.write(`equity ${version}\n`);
        else say(HELP);
        return 2;
    }
    const { mode, form } = words;
    let files;
    try {
        files = filesOf(words.files.length ? words.files : ['-']);
        if (words.lines && files.length > 1) lineSpans(files).forEach((it) => process.stderr.write(`${it}\n`));
    } catch (error) {
        say(/** @type {Error} */ (error).message);
        return 3;
    }
    try {
        if (mode === 'made') {
            if (!words.isPlain) throw new EquityError('USAGE', 'made takes no --seed and no --hands here');
            return await atOnce(mode, form, bytesOf([]));
        }
        const wholeModes = ['totals', 'balance', 'spots', 'ranges'];
        return await (wholeModes.includes(mode) ? atOnce : inPieces)(mode, form, bytesOf(files));
    } catch (error) {
        const { code, message } = /** @type {{ code: string, message: string }} */ (error);
        if (code === 'EPIPE') return 4;
        say(message);
        return STATUSES[code] || (error instanceof EquityError ? 8 : 3);
    }
};
