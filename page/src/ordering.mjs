// Sorts by numbers. A browser sorts numbers several times as fast as it sorts by a comparison.

/** Numbers up to this one are exact, with a factor of 2 to spare. */
const EXACT = 2 ** 52;

/**
 * Returns some numbers. A loop is several times as fast as `Float64Array.from`.
 * @param {number} length
 * @param {(at: number) => number} valueOf
 */
export const numbersOf = (length, valueOf) => {
    const all = new Float64Array(length);
    for (let at = 0; at < length; at++) all[at] = valueOf(at);
    return all;
};

/**
 * Returns the places of some numbers as the numbers rise. Equal ones stay in their order. A whole number and its place
 * are packed into one number if both fit.
 * @param {Float64Array} keys
 */
export const placesBy = (keys) => {
    const { length } = keys, step = 2 ** Math.ceil(Math.log2(length + 1));
    let least = Infinity, most = -Infinity, isWhole = true;
    for (let at = 0; at < length && isWhole; at++) {
        const key = keys[at];
        isWhole = Number.isSafeInteger(key);
        if (key < least) least = key;
        if (key > most) most = key;
    }
    if (isWhole && (most - least + 1) * step < EXACT) {
        const packed = numbersOf(length, (at) => (keys[at] - least) * step + at).sort();
        const places = new Uint32Array(length);
        for (let at = 0; at < length; at++) places[at] = packed[at] - Math.floor(packed[at] / step) * step;
        return places;
    }
    return Uint32Array.from({ length }, (it, at) => at).sort((a, b) => keys[a] - keys[b] || a - b);
};

/**
 * Returns the number that a text is if the text is how the number is written and the number is exact, otherwise NaN.
 * @param {string} text
 */
export const numberOf = (text) => {
    const number = Number(text);
    return Number.isSafeInteger(number) && String(number) === text ? number : NaN;
};

/**
 * Compares numbers of hands, which have up to 19 digits.
 * @param {string} a
 * @param {string} b
 */
export const byNumber = (a, b) => a.length - b.length || (a < b ? -1 : a > b ? 1 : 0);

/**
 * Returns the places of some hands as their numbers rise. Equal ones stay in their order.
 * @param {import('./hands.mjs').Hands} hands
 * @param {ArrayLike<number>} some
 */
export const placesByNumber = ({ columns, numbers }, some) => {
    const { digits } = columns, keys = numbersOf(some.length, (at) => digits[some[at]]);
    return keys.some(Number.isNaN) ? Uint32Array.from(some, (hand, at) => at)
        .sort((a, b) => byNumber(numbers[some[a]], numbers[some[b]]) || a - b) : placesBy(keys);
};
