// Exact equities from counts. The report says how often a hand ties, and not with how many others, so the counts give the exact
// equity only in some cases. All amounts are BigInt.

/** @typedef {import('../equity').Side} Side */
/** @typedef {import('../equity').Fraction} Fraction */

/**
 * @param {bigint} a
 * @param {bigint} b
 * @returns {bigint}
 */
const common = (a, b) => (b === 0n ? a : common(b, a % b));

/**
 * A fraction in lowest terms.
 * @param {bigint} above
 * @param {bigint} below
 * @returns {Fraction}
 */
export const fraction = (above, below) => {
    const by = common(above, below);
    return by === 0n ? [above, below] : [above / by, below / by];
};

/** @param {bigint[]} numbers */
const sum = (numbers) => numbers.reduce((whole, it) => whole + it, 0n);

/**
 * The part of one side that a hand gets, or null if the counts don't give it. `total` is the number of runouts, each as often as its
 * choice counts.
 * @param {readonly Side[]} sides the counts of all hands on this side
 * @param {number} at which hand
 * @param {bigint} total
 * @returns {Fraction | null}
 */
const partOf = (sides, at, total) => {
    const { win, tie } = sides[at];
    if (tie === 0n) return fraction(win, total);
    if (sides.length === 2) return fraction(2n * win + tie, 2n * total);
    if (sides.length !== 3) return null;
    // of the runouts that nobody wins alone, each tie of three is counted three times, and each tie of two twice
    const all = sum(sides.map((it) => it.tie)) - 2n * (total - sum(sides.map((it) => it.win)));
    return fraction(6n * win + 3n * (tie - all) + 2n * all, 6n * total);
};

/**
 * The exact equity of each hand, or null if the counts don't give it.
 * @param {readonly { high: Side | null, low: Side | null }[]} hands
 * @param {bigint} total
 * @returns {(Fraction | null)[]}
 */
export const equitiesOf = (hands, total) => {
    const highs = hands.flatMap((it) => (it.high ? [it.high] : []));
    const lows = hands.flatMap((it) => (it.low ? [it.low] : []));
    if (lows.length === 0 || highs.length === 0) {
        const sides = lows.length === 0 ? highs : lows;
        return hands.map((_, at) => partOf(sides, at, total));
    }
    // a game with two sides: exact if no runout has a low, or if there are two hands and every runout has one
    if (lows.every((it) => it.win === 0n && it.tie === 0n)) return hands.map((_, at) => partOf(highs, at, total));
    if (hands.length !== 2 || lows[0].win + lows[0].tie + lows[1].win !== total) return hands.map(() => null);
    return hands.map((_, at) => {
        const [high, low] = [partOf(highs, at, total), partOf(lows, at, total)];
        return high && low && fraction(high[0] * low[1] + high[1] * low[0], 2n * high[1] * low[1]);
    });
};
