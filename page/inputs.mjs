// Made inputs for trying the engine in several places: hands of the examples that are changed, lines of spots and ranges, and hands
// that the program makes. The same number gives the same input everywhere.

/** @typedef {{ mode: string, form: 'text' | 'csv', bytes: Uint8Array }} Input */

const MODES = ['check', 'audit', 'streets', 'results', 'settle', 'totals', 'balance'];
const CARDS = [...'23456789TJQKA'].flatMap((rank) => [...'cdhs'].map((suit) => rank + suit));
/** Games with the sizes of a hand and of a board that are counted in milliseconds. */
const GAMES = [
    ['holdem', [2], [3, 4, 5]], ['omaha', [4], [3, 4, 5]], ['omaha8', [4], [3, 4, 5]], ['stud', [5, 6, 7], [0]], ['stud8', [5, 6, 7], [0]],
    ['razz', [5, 6, 7], [0]], ['draw5', [4, 5], [0]], ['lowball27', [4, 5], [0]], ['triple27', [4, 5], [0]],
];
const RANGES = ['AA', 'TT+', 'AKs', 'AK', 'QJo', '22+', 'A9s+', 'KTo+', 'AsKh', '77:3', 'JTs,98s', 'AA:100', 'KA', 'A5s+,A5o+:2'];
const ODD = ['', ' ', '-', '--', '/', '//', 'Ax', 'As', '\r', '\u00e9', 'holdem'];
const encoder = new TextEncoder();

/** Numbers below a bound, from a seed: xorshift with 32 bits. @param {number} seed */
const numbers = (seed) => {
    let state = (seed * 2654435761) >>> 0 || 1;
    return (/** @type {number} */ bound) => {
        state ^= state << 13;
        state ^= state >>> 17;
        state ^= state << 5;
        state >>>= 0;
        return state % bound;
    };
};

/** @typedef {(bound: number) => number} Draw */

/** @template T @param {Draw} draw @param {T[]} all @returns {T} */
const one = (draw, all) => all[draw(all.length)];

/** Cards that differ. @param {Draw} draw @param {number} count */
const dealt = (draw, count) => {
    const deck = [...CARDS];
    return Array.from({ length: count }, () => deck.splice(draw(deck.length), 1)[0]);
};

/** A line of `spots`, one in six of them with a word that is wrong. @param {Draw} draw */
const spotLine = (draw) => {
    const [game, sizes, boards] = /** @type {[string, number[], number[]]} */ (one(draw, GAMES));
    const players = 2 + draw(game === 'holdem' ? 8 : 3);
    const size = one(draw, sizes);
    const board = one(draw, boards);
    const cards = dealt(draw, Math.min(52, players * size + board + draw(3)));
    const words = [game];
    for (let at = 0; at < players; at++) words.push(...(at ? ['-'] : []), ...cards.splice(0, size));
    if (board) words.push('--', ...cards.splice(0, board));
    if (cards.length) words.push('/', ...cards);
    if (draw(6) === 0) words.splice(draw(words.length), draw(2), one(draw, ODD));
    return words.join(' ');
};

/** A line of `ranges`, on a board. @param {Draw} draw */
const rangeLine = (draw) => {
    const ranges = Array.from({ length: 2 + draw(2) }, () => one(draw, RANGES));
    return `holdem ${ranges.join(' - ')} -- ${dealt(draw, draw(9) ? 4 : 3).join(' ')}`;
};

/** Some lines of a history, with a few of them changed. @param {Draw} draw @param {string} text */
const changed = (draw, text) => {
    const lines = text.split('\n');
    const first = draw(Math.max(1, lines.length - 60));
    const some = lines.slice(first, first + 40 + draw(120));
    for (let count = draw(4); count > 0; count--) {
        const at = draw(some.length);
        const kind = draw(7);
        if (kind === 0) some.splice(at, 1);
        else if (kind === 1) some.splice(at, 0, some[draw(some.length)]);
        else if (kind === 2) some[at] = some[at].replace(/[0-9]/, String(draw(10)));
        else if (kind === 3) some[at] = `${some[at]}\r`;
        else if (kind === 4) some[at] = some[at].slice(0, draw(some[at].length + 1));
        else if (kind === 5) some[at] = some[at].replace(/[2-9TJQKA][cdhs]/, one(draw, CARDS));
        else some[at] = some[at].replace(/\$[0-9]+/, '$999999999999999');
    }
    return some.join('\n');
};

/**
 * The input of a number, from the texts of histories.
 * @param {number} number
 * @param {string[]} histories
 * @returns {Input}
 */
export const inputAt = (number, histories) => {
    const draw = numbers(number + 1);
    draw(2);
    const form = draw(2) ? 'csv' : 'text';
    const kind = draw(20);
    if (kind === 0) return { mode: 'made', form, bytes: new Uint8Array(0) };
    if (kind < 7) {
        const mode = kind < 3 ? 'ranges' : 'spots';
        const lines = Array.from({ length: 1 + draw(5) }, () => (mode === 'ranges' ? rangeLine(draw) : spotLine(draw)));
        return { mode, form, bytes: encoder.encode(`${lines.join('\n')}\n`) };
    }
    return { mode: one(draw, MODES), form, bytes: encoder.encode(changed(draw, one(draw, histories))) };
};

/**
 * The checksums after each so many runs: of the one before, the status, and the report.
 * @param {(mode: string, form: string, bytes: Uint8Array) => { status: number, report: Uint8Array }} run
 * @param {string[]} histories
 * @param {number} count
 * @param {number} step
 * @returns {Promise<string[]>}
 */
export const checksums = async (run, histories, count, step) => {
    let before = new Uint8Array(32);
    const kept = [];
    for (let at = 0; at < count; at++) {
        const { mode, form, bytes } = inputAt(at, histories);
        const { status, report } = run(mode, form, bytes);
        const whole = new Uint8Array(33 + report.length);
        whole.set(before);
        whole[32] = status;
        whole.set(report, 33);
        before = new Uint8Array(await crypto.subtle.digest('SHA-256', whole));
        if ((at + 1) % step === 0 || at + 1 === count) kept.push([...before.subarray(0, 8)].map((it) => it.toString(16).padStart(2, '0')).join(''));
    }
    return kept;
};
