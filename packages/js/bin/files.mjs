// Files as words of a command line, for computers without Linux: the rules of the installed script `equity`.

import { closeSync, createReadStream, openSync, readSync, readdirSync, statSync } from 'node:fs';
import { join } from 'node:path';

/** @typedef {{ mode: string | null, form: 'text' | 'csv', files: string[], lines: boolean, isPlain: boolean }} Words */

export const MODES = ['audit', 'check', 'streets', 'results', 'settle', 'totals', 'balance', 'spots', 'ranges', 'made'];
const NEWLINE = 0x0a;

/**
 * Reads the words of a command line, or returns null if they aren't in form. `isPlain` says that no option of `made` is set.
 * @param {string[]} given
 * @returns {Words | null}
 */
export const readWords = (given) => {
    /** @type {Words} */
    const words = { mode: null, form: 'text', files: [], lines: false, isPlain: true };
    const left = [...given];
    for (let word = left.shift(); word !== undefined; word = left.shift()) {
        if (word === '--') {
            words.files.push(...left.splice(0));
        } else if (word.startsWith('--')) {
            const [name, ...behind] = word.split('=');
            if (name === '--lines' || name === '--quiet') {
                words.lines = words.lines || name === '--lines';
                continue;
            }
            const value = behind.length ? behind.join('=') : left.shift();
            if (value === undefined || !setOption(words, name, value)) return null;
        } else if (words.mode === null && MODES.includes(word)) {
            words.mode = word;
        } else {
            words.files.push(word);
        }
    }
    const asksForHelp = given[0] === 'help' || given[0] === '-h';
    const readsNoFile = words.mode === 'made' || (words.lines && words.files.includes('-'));
    return words.mode === null || asksForHelp || (readsNoFile && words.files.length > 0) ? null : words;
};

/**
 * @param {Words} words
 * @param {string} name
 * @param {string} value
 */
const setOption = (words, name, value) => {
    if (name === '--format' && (value === 'text' || value === 'csv')) words.form = value;
    else if (name === '--workers' && Number(value) >= 1 && Number(value) <= 16) return /^[0-9]+$/.test(value);
    else if (name === '--seed' || name === '--hands') words.isPlain = false;
    else return false;
    return true;
};

/**
 * The files below a folder whose names end with `.txt`.
 * @param {string} folder
 * @returns {string[]}
 */
const textsBelow = (folder) => readdirSync(folder, { withFileTypes: true }).flatMap((it) => {
    const path = join(folder, it.name);
    if (it.isDirectory()) return textsBelow(path);
    return /\.txt$/i.test(it.name) && statSync(path).isFile() ? [path] : [];
});

/**
 * @param {string} a
 * @param {string} b
 */
const byBytes = (a, b) => Buffer.compare(Buffer.from(a), Buffer.from(b));

/**
 * The files that words name, in order; `-` is standard input. Throws an Error that names what can't be read.
 * @param {string[]} names
 */
export const filesOf = (names) => names.flatMap((name) => {
    if (name === '-') return [name];
    if (statSync(name).isDirectory()) {
        const found = textsBelow(name).sort(byBytes);
        if (!found.length) throw new Error(`${name}: no file *.txt in it or below it`);
        found.forEach((it) => closeSync(openSync(it, 'r')));
        return found;
    }
    closeSync(openSync(name, 'r'));
    return [name];
});

/**
 * Yields the bytes of files, with a newline between two.
 * @param {string[]} files
 * @returns {AsyncGenerator<Uint8Array>}
 */
export async function* bytesOf(files) {
    for (const [at, file] of files.entries()) {
        if (at > 0) yield Uint8Array.of(NEWLINE);
        yield* file === '-' ? process.stdin : createReadStream(file, { highWaterMark: 1 << 20 });
    }
}

/**
 * The lines of each file among all that is read: `FILE: lines A to B`.
 * @param {string[]} files
 * @returns {string[]}
 */
export const lineSpans = (files) => {
    let next = 1;
    return files.map((file) => {
        const first = next;
        const handle = openSync(file, 'r');
        const buffer = Buffer.alloc(1 << 20);
        let newlines = 0;
        let last = NEWLINE;
        for (let count = readSync(handle, buffer); count > 0; count = readSync(handle, buffer)) {
            for (let at = buffer.indexOf(NEWLINE); at >= 0 && at < count; at = buffer.indexOf(NEWLINE, at + 1)) newlines++;
            last = buffer[count - 1];
        }
        closeSync(handle);
        const lines = newlines + (last === NEWLINE ? 0 : 1);
        // the newline that is put between two files ends a line of its own if the file ended with one
        next = first + newlines + 1;
        return `${file}: lines ${first} to ${first + Math.max(lines, 1) - 1}`;
    });
};
