// What the program answers to a spot or to ranges, and the exact share of each player where the counts give it.

/**
 * Runouts of a hand on one side, `high` or `low`.
 * @typedef {{ side: string, win: bigint, tie: bigint, lose: bigint }} Counts
 * A number as numerator and denominator.
 * @typedef {readonly [bigint, bigint]} Fraction
 * `choices` and `weight` are 0 in a spot. `total` is the number of runouts of all choices, each by its weight.
 * @typedef {{ game: string, choices: bigint, runouts: bigint, weight: bigint, total: bigint,
 *     hands: { sides: Counts[], ev: string }[] }} Answer
 * @typedef {{ answer: Answer, refusal?: undefined } | { answer?: undefined, refusal: string }} Read
 */

/**
 * Reads the blocks of a report of `spots` or `ranges`: an answer for each line, or the words of its refusal.
 * @param {string} report
 * @returns {Read[]}
 */
export const readAnswers = (report) => {
    /** @type {Read[]} */
    const found = [];
    for (const line of report.split('\n').filter(Boolean)) {
        const word = line.split(' '), last = found[found.length - 1];
        if (word[0] === 'spot') {
            if (word[2] === 'rejected') found.push({ refusal: word.slice(5).join(' ') });
            else if (word[3] === 'refused') found.push({ refusal: 'above' });
            else {
                const at = (/** @type {string} */ name) => BigInt(word[word.indexOf(name, 3) + 1]);
                const isRange = word.includes('choices'), weight = isRange ? at('weight') : 0n, runouts = at('runouts');
                const total = isRange ? runouts * weight : runouts;
                const choices = isRange ? at('choices') : 0n;
                found.push({ answer: { game: word[2], choices, runouts, weight, total, hands: [] } });
            }
        } else if (last && last.answer) {
            const { hands } = last.answer, hand = Number(word[1]) - 1;
            if (hand === hands.length) hands.push({ sides: [], ev: '' });
            if (word[2] === 'ev') hands[hand].ev = word[3];
            else
                hands[hand].sides.push(
                    { side: word[2], win: BigInt(word[4]), tie: BigInt(word[7]), lose: BigInt(word[10]) });
        }
    }
    return found;
};

const sum = (/** @type {bigint[]} */ values) => values.reduce((all, it) => all + it, 0n);

/**
 * Returns the exact share of a player, or null where the counts don't give it: with four players or more, and with two
 * sides. A tie of three players gives each a third, and all other ties of three are of two.
 * @param {Pick<Answer, 'hands' | 'total'>} answer
 * @param {number} index
 * @returns {Fraction | null}
 */
export const shareOf = ({ hands, total }, index) => {
    const sides = hands.map((it) => it.sides[0]), { win, tie } = sides[index];
    if (hands.some((it) => it.sides.length !== 1)) return null;
    if (!tie) return [win, total];
    if (hands.length === 2) return [2n * win + tie, 2n * total];
    if (hands.length !== 3) return null;
    const ofAll = sum(sides.map((it) => it.tie)) - 2n * (total - sum(sides.map((it) => it.win)));
    return [6n * win + 3n * (tie - ofAll) + 2n * ofAll, 6n * total];
};

/**
 * Writes a fraction with some decimal places, to the nearest, a half up.
 * @param {Fraction} fraction
 * @param {number} places
 */
export const fixed = ([over, under], places) => {
    const units = (2n * over * 10n ** BigInt(places) + under) / (2n * under);
    const text = String(units).padStart(places + 1, '0'), whole = text.slice(0, text.length - places);
    return places ? `${whole}.${text.slice(text.length - places)}` : whole;
};

/**
 * Returns the share of a player in percent, and as a number from 0 to 1: exact to two decimal places where the counts
 * give it, and otherwise as the program rounded it.
 * @param {Answer} answer
 * @param {number} index
 */
export const percentOf = (answer, index) => {
    const share = shareOf(answer, index), { ev } = answer.hands[index];
    return share ? { text: `${fixed([share[0] * 100n, share[1]], 2)}%`, part: Number(share[0]) / Number(share[1]) }
        : { text: `${(Number(ev) * 100).toFixed(1)}%`, part: Number(ev) };
};

/**
 * Writes an answer to ranges as the program does.
 * @param {Answer} answer
 */
export const writtenAnswer = (answer) => {
    const { game, choices, runouts, weight, total, hands } = answer;
    const percent = (/** @type {bigint} */ count) => `${count} ${fixed([count * 100n, total], 2)}`;
    const lines = hands.flatMap(({ sides }, index) => [
        ...sides.map(({ side, win, tie, lose }) =>
            `hand ${index + 1} ${side} win ${percent(win)} tie ${percent(tie)} lose ${percent(lose)}`),
        `hand ${index + 1} ev ${fixed(/** @type {Fraction} */ (shareOf(answer, index)), 3)}`
    ]);
    return [`spot 1 ${game} choices ${choices} runouts ${runouts} weight ${weight}`, ...lines, ''].join('\n');
};
