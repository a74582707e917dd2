// The axes of the graph, and as many points as can be seen of many.

/**
 * Returns round values between two bounds, about as many as are wanted.
 * @param {number} low
 * @param {number} high
 * @param {number} wanted
 */
export const ticks = (low, high, wanted) => {
    const raw = (high - low || 1) / wanted, power = 10 ** Math.floor(Math.log10(raw));
    const step = [1, 2, 2.5, 5, 10].map((it) => it * power).find((it) => it >= raw * 0.999) || 10 * power, all = [];
    for (let at = Math.ceil(low / step); at * step <= high; at++) all.push(Number((at * step).toPrecision(12)));
    return all;
};

/**
 * Returns the places of some points of a line: of each column of pixels the first, the least, the greatest, and the
 * last.
 * @param {number} from
 * @param {number} to  after the last
 * @param {(at: number) => number} columnOf  rises
 * @param {ArrayLike<number>} values
 */
export const thin = (from, to, columnOf, values) => {
    /** @type {number[]} */
    const kept = [];
    for (let start = from, end; start < to; start = end) {
        const column = columnOf(start);
        let least = start, most = start;
        for (end = start + 1; end < to && columnOf(end) === column; end++) {
            if (values[end] < values[least]) least = end;
            if (values[end] > values[most]) most = end;
        }
        for (const at of [start, Math.min(least, most), Math.max(least, most), end - 1]) {
            if (!kept.length || at > kept[kept.length - 1]) kept.push(at);
        }
    }
    return kept;
};

/**
 * Returns the place of the first value that isn't below a bound, in values that rise.
 * @param {ArrayLike<number>} values
 * @param {number} bound
 */
export const placeOf = (values, bound) => {
    let low = 0, high = values.length;
    while (low < high) {
        const middle = (low + high) >> 1;
        if (values[middle] < bound) low = middle + 1;
        else high = middle;
    }
    return low;
};

/**
 * Returns the place of the nearest value, in values that rise.
 * @param {ArrayLike<number>} values
 * @param {number} x
 */
export const nearest = (values, x) => {
    const at = Math.min(placeOf(values, x), values.length - 1);
    return at > 0 && x - values[at - 1] < values[at] - x ? at - 1 : at;
};
