// On which streets of an all-in each player was ahead, by the program's report `streets`.

import { records } from './reports.mjs';

const STREETS = ['preflop', 'flop', 'turn'];
const TEXTS = ['preflop', 'on the flop', 'on the turn'];
/** The bits of a street that was counted, and of one on which the player was ahead. */
const knownOf = (/** @type {number} */ at) => 1 << at, aheadOf = (/** @type {number} */ at) => 8 << at;

/**
 * Returns for each hand of a report of `streets` the marks of its players: for each street whether it was counted, and
 * whether the player had the greatest part of the main pot to expect.
 * @param {string} csv
 */
export const leadsOf = (csv) => {
    /** @type {Map<string, number>[]} */
    const hands = [];
    /** @type {{ name: string, part: number }[]} */
    let parts = [];
    let street = -1;
    const close = () => {
        const marks = hands[hands.length - 1], most = Math.max(...parts.map(({ part }) => part));
        const isShared = parts.filter(({ part }) => part === most).length > 1;
        for (const { name, part } of parts) {
            const isAhead = part === most && !isShared;
            marks.set(name, (marks.get(name) || 0) | knownOf(street) | (isAhead ? aheadOf(street) : 0));
        }
        parts = [];
    };
    for (const words of records(csv)) {
        const [kind, first, second, third] = words;
        if (['hand', 'all-in', 'street'].includes(kind)) {
            if (parts.length) close();
            street = kind !== 'hand' && second === 'runouts' ? STREETS.indexOf(first) : -1;
            if (kind === 'hand') hands.push(new Map());
        } else if (kind === 'pot' && first === '0' && second === 'ev' && street >= 0)
            parts.push({ name: words[12], part: Number(third) });
    }
    if (parts.length) close();
    return hands;
};

/**
 * Returns for each accepted hand with an all-in who was ahead on which street. The program counts these hands alone.
 * @param {(mode: string, input: Uint8Array) => string} report
 * @param {Uint8Array[]} texts
 * @param {number[]} hands
 */
export const leads = (report, texts, hands) => {
    const input = new Uint8Array(texts.reduce((sum, { length }) => sum + length, 0));
    let end = 0;
    for (const it of texts) {
        input.set(it, end);
        end += it.length;
    }
    const found = texts.length ? leadsOf(report('streets', input)) : [];
    return new Map(found.length === hands.length ? hands.map((hand, at) => [hand, found[at]]) : []);
};

/**
 * Returns the options of a filter over such marks.
 * @param {(string | number)[]} values
 */
export const leadOptions = (values) => {
    const codes = (/** @type {(marks: number) => boolean} */ has) =>
        values.flatMap((value, code) => has(Number(value)) ? [code] : []);
    const all = STREETS.flatMap((street, at) => [
        { value: `ahead ${street}`, text: `ahead ${TEXTS[at]}`, codes: codes((it) => (it & aheadOf(at)) !== 0) },
        { value: `behind ${street}`, text: `not ahead ${TEXTS[at]}`,
            codes: codes((it) => (it & knownOf(at)) !== 0 && !(it & aheadOf(at))) }
    ]);
    const some = all.filter((it) => it.codes.length);
    return some.length ? [...some, { value: 'none', text: 'not counted', codes: codes((it) => it === 0) }] : [];
};
