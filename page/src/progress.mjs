// How far a job over many bytes is, and how long it may still take.

/** @param {number} bytes */
export const megabytes = (bytes) => bytes < 1e5 ? `${Math.ceil(bytes / 1000)} kB` : `${(bytes / 1e6).toFixed(1)} MB`;

/** @param {number} seconds */
export const span = (seconds) =>
    seconds < 60 ? `${Math.max(1, Math.round(seconds))} s` : `${Math.round(seconds / 60)} min`;

/**
 * Returns a number as a text, with commas between thousands.
 * @param {string} text
 */
export const grouped = (text) => {
    const [whole, decimals] = text.split('.');
    return whole.replace(/\B(?=(\d{3})+$)/g, ',') + (decimals ? `.${decimals}` : '');
};

/** @param {number} count */
export const counted = (count) => grouped(String(count));

/**
 * Returns a count with its noun: 1 file, 2 files.
 * @param {number} count
 * @param {string} noun
 */
export const many = (count, noun) => `${counted(count)} ${noun}${count === 1 ? '' : 's'}`;

/**
 * Returns how far a job is: the part of all bytes, the bytes, and the time left, if that can be said already.
 * @param {number} done
 * @param {number} all
 * @param {number} seconds  since it began
 */
export const progressOf = (done, all, seconds) => {
    const part = all ? Math.min(1, done / all) : 1, left = part > 0 ? seconds * (1 - part) / part : 0;
    const isSure = seconds > 1 && part > 0.02 && part < 1;
    return `${Math.floor(100 * part)}%, ${megabytes(done)} of ${megabytes(all)}${
        isSure ? `, about ${span(left)} left` : ''}`;
};
