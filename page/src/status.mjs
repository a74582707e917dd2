// What the page is at: how far the reading is, what was read, and how many hands there are.

import { ACCEPTED } from './part.mjs';
import { counted, many, progressOf } from './progress.mjs';

/** @typedef {import('./reader.mjs').Reading} Reading */

/**
 * Returns how far the reading is, or how it ended, as a sentence.
 * @param {Reading} reading
 * @param {number} hands  how many there are so far
 * @param {number} now
 */
export const readingSentence = (reading, hands, now) => {
    const seconds = (now - reading.began) / 1000;
    if (reading.isReading) {
        return `Reading file ${counted(Math.min(reading.filesDone + 1, reading.files))} of ${counted(reading.files)}: `
            + `${progressOf(reading.bytesDone, reading.bytes, seconds)}, ${many(hands, 'hand')} so far.`;
    }
    if (reading.isStopped) return `Stopped. ${many(hands, 'hand')} were read, and stay.`;
    const failed = reading.missed.filter((it) => it.isFailed).length, empty = reading.missed.length - failed;
    return `${many(reading.files, 'file')} read in ${seconds.toFixed(1)} s.${
               empty ? ` ${many(empty, 'file')} without a hand: see Files.` : ''}` +
        `${failed ? ` ${many(failed, 'file')} not read to the end: see Files.` : ''}`;
};

/**
 * Shows how many hands there are, and what else is to be known of them.
 * @param {HTMLElement} place
 * @param {import('./choice.mjs').Choice} choice
 * @param {boolean} isPartial
 */
export const showHeads = (place, { hands, order }, isPartial) => {
    let rejected = 0;
    for (const hand of order) if (!(hands.columns.flags[hand] & ACCEPTED)) rejected++;
    place.textContent = `${many(order.length, 'hand')}${isPartial ? ' so far' : ''}, ${
        rejected ? `${counted(rejected)} of them rejected` : 'none of them rejected'}.${
        hands.again ? ` ${many(hands.again, 'duplicate')} ignored.` : ''}`;
};

/**
 * Shows how far the reading is as a bar over the bytes of all files.
 * @param {HTMLProgressElement} place
 * @param {Reading} reading
 */
export const barOf = (place, { isReading, bytes, bytesDone }) => {
    place.hidden = !isReading;
    place.value = bytes ? Math.min(1, bytesDone / bytes) : 0;
};
