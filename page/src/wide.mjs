// Ranges above the limit of the program, in parts below it. Each choice of hands is in exactly one part, no choice
// stands for another, and the whole numbers of the parts are added up.

import { choicesOf, combosOf, comboText } from './combos.mjs';

/** @typedef {import('./answers.mjs').Answer} Answer */
/** @typedef {import('./combos.mjs').Combo} Combo */

/** The most runouts of a line, over all ways to take a hand from each range. */
export const LIMIT = 200000000;

/** A range is cut into smaller parts only down to so many ways to take a hand from each range. */
const LEAST = 16;

/**
 * A line of ranges: the range of each player, and the cards of the board and the dead cards.
 * @typedef {{ sides: string[], board: string[], dead: string[] }} Spot
 * A part: its line, and how many ways there are in it to take a hand from each range.
 * @typedef {{ line: string, ways: number }} Part
 */

/**
 * Returns how many ways there are to take some of a number of things.
 * @param {number} all
 * @param {number} some
 */
const ways = (all, some) => {
    let count = 1;
    for (let at = 0; at < some; at++) count = count * (all - at) / (at + 1);
    return count;
};

/**
 * Returns the runouts of one choice.
 * @param {Spot} spot
 */
export const runoutsOf = ({ sides, board, dead }) =>
    ways(52 - 2 * sides.length - board.length - dead.length, 5 - board.length);

/**
 * Returns into how many pieces each range is cut, so that a part has at most so many ways. The largest are cut first.
 * @param {number[]} sizes
 * @param {number} most
 */
export const piecesOf = (sizes, most) => {
    const held = [...sizes], order = sizes.map((it, at) => at).sort((a, b) => sizes[b] - sizes[a]);
    for (const at of order) {
        const others = held.reduce((all, it, index) => index === at ? all : all * it, 1);
        if (others * held[at] > most) held[at] = Math.max(1, Math.floor(most / others));
    }
    return sizes.map((size, at) => Math.ceil(size / Math.max(1, held[at])));
};

/**
 * Cuts some hands into pieces of nearly the same size.
 * @param {Combo[]} combos
 * @param {number} count
 */
const cut = (combos, count) => Array.from({ length: count }, (it, at) => combos.slice(
    Math.floor(combos.length * at / count), Math.floor(combos.length * (at + 1) / count)));

/**
 * Plans how a line of two or three ranges is counted. A part has at most `limit` runouts, and if there is enough to
 * count, there are at least so many parts.
 * @param {Spot} spot
 * @param {number} wanted
 * @param {number} [limit]
 */
export const planOf = (spot, wanted, limit = LIMIT) => {
    const gone = [...spot.board, ...spot.dead], sides = spot.sides.map((range) => combosOf(range, gone));
    const runouts = runoutsOf(spot), all = sides.reduce((product, it) => product * it.length, 1);
    const most = Math.max(1, Math.min(Math.floor(limit / runouts), Math.max(LEAST, Math.ceil(all / wanted))));
    const counts = piecesOf(sides.map((it) => it.length), most), pieces = sides.map((it, at) => cut(it, counts[at]));
    const rest = [...spot.board.length ? ['--', ...spot.board] : [], ...spot.dead.length ? ['/', ...spot.dead] : []];
    const texts = pieces.map((its) => its.map((piece) => piece.map(comboText).join(',')));
    /** @returns {Generator<Part>} */
    const parts = function* () {
        const places = counts.map(() => 0);
        while (all) {
            const line = ['holdem', places.map((at, side) => texts[side][at]).join(' - '), ...rest].join(' ');
            yield { line, ways: places.reduce((product, at, side) => product * pieces[side][at].length, 1) };
            let side = places.length - 1;
            while (side >= 0 && ++places[side] === counts[side]) places[side--] = 0;
            if (side < 0) return;
        }
    };
    return {
        runouts,
        ways: all,
        count: counts.reduce((product, it) => product * it, 1),
        ...choicesOf(sides),
        players: sides.length,
        parts
    };
};

/** @typedef {ReturnType<typeof planOf>} Plan */

/**
 * Returns the answer to no choice, to which the parts are added.
 * @param {Plan} plan
 * @returns {Answer}
 */
export const noAnswer = ({ runouts, players }) => ({
    game: 'holdem', choices: 0n, runouts: BigInt(runouts), weight: 0n, total: 0n,
    hands: Array.from(
        { length: players }, () => ({ sides: [{ side: 'high', win: 0n, tie: 0n, lose: 0n }], ev: '' }))
});

/**
 * Adds the answer to a part. Of a part without a choice there is nothing to add.
 * @param {Answer} sum
 * @param {import('./answers.mjs').Read} read
 */
export const addPart = (sum, { answer, refusal }) => {
    if (refusal === 'NoChoice') return;
    if (!answer || answer.runouts !== sum.runouts || answer.hands.length !== sum.hands.length)
        throw new Error(`a part can't be counted: ${refusal || 'it has other runouts'}`);
    sum.choices += answer.choices;
    sum.weight += answer.weight;
    sum.total += answer.total;
    sum.hands.forEach(({ sides: [counts] }, index) => {
        const [other] = answer.hands[index].sides;
        counts.win += other.win;
        counts.tie += other.tie;
        counts.lose += other.lose;
    });
};

/**
 * Throws if the parts don't have each choice once.
 * @param {Answer} sum
 * @param {Plan} plan
 */
export const checkSum = (sum, { choices, weight }) => {
    const isWhole = sum.hands.every(({ sides: [it] }) => it.win + it.tie + it.lose === sum.total);
    if (sum.choices !== BigInt(choices) || sum.weight !== BigInt(weight) || !isWhole)
        throw new Error(`the parts have ${sum.choices} choices instead of ${choices}: please report this line`);
};
