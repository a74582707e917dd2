// How many hands each option of each filter would leave, and which hands pass all filters.

import { daysOf } from './options.mjs';
import { dayText } from './words.mjs';

/** @typedef {import('./options.mjs').Coded} Coded */

export const FILTERS = [
    'dates', 'stakes', 'game', 'table', 'tournament', 'position', 'players', 'session', 'all-in', 'ahead',
    'showdown'
];

/**
 * Returns the codes that an option of a filter leaves. Of the dates a span is an option too.
 * @param {Coded} filter
 * @param {string} value
 */
const codesOf = ({ name, values, options }, value) => name === 'dates' && value.includes('..') ? daysOf(values, value)
    : (options.find((it) => it.value === value) || { codes: [] }).codes;

/**
 * Returns the text of what is chosen in a filter.
 * @param {Coded} filter
 * @param {string} value
 */
export const chosenText = ({ options }, value) => {
    const option = options.find((it) => it.value === value), [from, to] = value.split('..');
    if (option) return option.text;
    const textOf = (/** @type {string} */ day) => day ? dayText(Date.parse(day) / 1000) : '';
    return to === undefined ? value : `${textOf(from)} – ${textOf(to)}`.trim();
};

/**
 * Returns the places of the hands that pass all filters, and for each option of each filter how many hands it would
 * leave. One pass does both: a hand counts for each filter if it passes all, and otherwise for the one filter that
 * alone it fails.
 * @param {Coded[]} filters
 * @param {{ [filter: string]: string }} chosen  the option of each filter that is set
 * @param {number} count  how many hands there are
 */
export const filtered = (filters, chosen, count) => {
    const set = filters.map((filter, at) => ({ filter, at })).filter(({ filter }) => chosen[filter.name] !== undefined);
    const masks = set.map(({ filter }) => {
        const mask = new Uint8Array(filter.values.length);
        for (const code of codesOf(filter, chosen[filter.name])) mask[code] = 1;
        return mask;
    });
    const counts = filters.map(({ values }) => new Uint32Array(values.length)), places = new Uint32Array(count);
    let passed = 0;
    for (let at = 0; at < count; at++) {
        let failed = -1, fails = 0;
        for (let it = 0; it < set.length && fails < 2; it++) {
            if (!masks[it][set[it].filter.codes[at]]) {
                failed = set[it].at;
                fails++;
            }
        }
        if (fails === 0) {
            places[passed++] = at;
            for (let it = 0; it < filters.length; it++) counts[it][filters[it].codes[at]]++;
        } else if (fails === 1) counts[failed][filters[failed].codes[at]]++;
    }
    const ofOptions = filters.map(({ options }, it) =>
        options.map(({ codes }) => codes.reduce((sum, code) => sum + counts[it][code], 0)));
    return { places: places.subarray(0, passed), counts: ofOptions };
};
