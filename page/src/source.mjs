// The bytes of a hand, read from its file again, because the page keeps no text in memory.

import { handAt } from './played.mjs';

/** @typedef {import('./hands.mjs').Hands} Hands */

/** A browser computes the checksum of a file in one call, which needs memory for all of it. */
const SUMMED = 4e8;

/**
 * Returns the bytes of a hand as a text of its own, in which lines have the numbers of the file. Throws if the file
 * changed.
 * @param {Hands} hands
 * @param {number} hand
 */
export const bytesOf = async (hands, hand) => {
    const { source, start, end, number } = handAt(hands, hand);
    const changed = new Error(`${source.path} changed since it was read. Drop it again to see hand ${number}.`);
    const bytes = await source.file.slice(start, end)
                      .arrayBuffer()
                      .then((/** @type {ArrayBuffer} */ it) => new Uint8Array(it), () => {
                          throw changed;
                      });
    if (bytes.length !== end - start || !new TextDecoder().decode(bytes.subarray(0, 200)).includes(`#${number}`))
        throw changed;
    return bytes;
};

/**
 * Returns a checksum as digits.
 * @param {Blob} file
 */
export const sumOfFile = async (file) => {
    if (file.size > SUMMED) return 'not computed, because the file is larger than 400 MB';
    const sum = new Uint8Array(await crypto.subtle.digest('SHA-256', await file.arrayBuffer()));
    return Array.from(sum, (it) => it.toString(16).padStart(2, '0')).join('');
};
