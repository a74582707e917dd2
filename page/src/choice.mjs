// What is chosen of the hands. Each part is computed when it is asked for, and again only if what it depends on
// changed.

import { FILTERS, filtered } from './filters.mjs';
import { found } from './find.mjs';
import { nameOf, namesOf, tallyOf } from './names.mjs';
import { filterMakers } from './options.mjs';
import { ACCEPTED } from './part.mjs';
import { allInOf, entriesOf, EVERYBODY, inOrder, parted, unitsOf } from './played.mjs';
import { seriesOf } from './series.mjs';
import { sorted } from './sorting.mjs';
import { keysOf, sumOf, sumsBy } from './sums.mjs';

/** @typedef {import('./hands.mjs').Hands} Hands */
/** @typedef {import('./played.mjs').Played} Played */
/** @typedef {import('./store.mjs').State} State */

/** So many names can be chosen from a list. */
const NAMES = 200;

/**
 * Returns a function that computes something from the state again only if what it depends on changed.
 * @template T
 * @param {() => string} keyOf
 * @param {() => T} compute
 */
const kept = (keyOf, compute) => {
    /** @type {{ key: string, value: T } | null} */
    let last = null;
    return () => {
        const key = keyOf();
        if (!last || last.key !== key) last = { key, value: compute() };
        return last.value;
    };
};

/**
 * Which of the hands that pass the filters a list shows.
 * @type {{ [which: string]: (hands: Hands, it: Played) => boolean }}
 */
const SHOWS = {
    'all-in': (hands, it) => allInOf(hands, it) !== 0,
    rejected: ({ columns }, { hand }) => !(columns.flags[hand] & ACCEPTED),
    owed: (hands, { hand }) => !(hands.columns.flags[hand] & ACCEPTED) && hands.owed.has(hand)
};

export const WHICH = ['all', ...Object.keys(SHOWS)];

/**
 * Returns a function that says what follows from the state: the hands in order, their names, the hands of the chosen
 * player, those that pass the filters, and those that the list shows.
 * @param {State} state
 */
export const makeChoice = (state) => {
    const hands = () => state.collections[state.collection];
    const handsKey = () => `${state.collection} ${state.version}`;
    const order = kept(handsKey, () => inOrder(hands()));
    const tally = kept(handsKey, () => tallyOf(hands(), order()));
    const names = kept(handsKey, () => namesOf(hands(), tally(), NAMES));
    const named = (/** @type {string} */ name) => nameOf(hands(), tally(), name);
    const playerKey = () => JSON.stringify([handsKey(), state.player, state.unit]);
    const own = kept(playerKey, () => {
        const known = names(), isEvery = state.player === EVERYBODY,
              player = isEvery || named(state.player).count ? state.player : known.length ? known[0].name : EVERYBODY;
        const units = unitsOf(hands(), order(), player),
              unit = units.includes(state.unit) ? state.unit : player === EVERYBODY ? '' : units[0] || '';
        return { player, units, unit };
    });
    const all = kept(playerKey, () => entriesOf(hands(), order(), own().player, own().unit));
    const makers = kept(playerKey, () => filterMakers(hands(), all()));
    const coded = FILTERS.map((name, at) => kept(playerKey, () => makers()[at]()));
    const filters = kept(playerKey, () => coded.map((it) => it()));
    const passingKey = () => JSON.stringify([playerKey(), state.filters]);
    const passing = kept(passingKey, () => {
        const some = all(), { places, counts } = filtered(filters(), state.filters, some.length);
        const entries = places.length === some.length ? some : Array.from(places, (at) => some[at]);
        return { counts, entries, ...parted(hands(), entries) };
    });
    const summed = kept(passingKey, () => sumOf(hands(), passing().played));
    const series = kept(() => JSON.stringify([passingKey(), state.by]),
        () => seriesOf(hands(), passing().played, state.by));
    const keys = kept(() => JSON.stringify([passingKey(), state.group]),
        () => keysOf(hands(), passing().played, state.group));
    const groups = kept(() => JSON.stringify([passingKey(), state.group]),
        () => sumsBy(hands(), passing().played, keys()));
    const foundKey = () => JSON.stringify([passingKey(), state.words]);
    const finding = kept(foundKey, () => {
        const these = hands(), some = found(these, passing().entries, state.words);
        const counts = WHICH.map((which) => {
            const shows = SHOWS[which];
            return shows ? some.reduce((count, it) => shows(these, it) ? count + 1 : count, 0) : some.length;
        });
        return { some, counts };
    });
    const listedKey = () => JSON.stringify([foundKey(), state.which, state.order, state.isUp]);
    const listed = kept(listedKey, () => {
        const { some } = finding(), shows = SHOWS[state.which];
        return sorted(hands(), shows ? some.filter((it) => shows(hands(), it)) : some, state.order, state.isUp);
    });
    const listSum = kept(listedKey, () =>
        sumOf(hands(), listed().filter(({ hand }) => hands().columns.flags[hand] & ACCEPTED)));
    const choice = {
        get hands() { return hands(); },
        get order() { return order(); },
        get names() { return names(); },
        get nameCount() { return tally().size; },
        named,
        get player() { return own().player; },
        get isEvery() { return own().player === EVERYBODY; },
        get units() { return own().units; },
        get unit() { return own().unit; },
        get all() { return all(); },
        get filters() { return filters(); },
        get counts() { return passing().counts; },
        get entries() { return passing().entries; },
        get played() { return passing().played; },
        get left() { return passing().left; },
        get sum() { return summed(); },
        get series() { return series(); },
        get groups() { return groups(); },
        get found() { return finding(); },
        get listed() { return listed(); },
        get listSum() { return listSum(); },
    };
    const ofPlayer = [order, tally, names, own], ofFilters = [...ofPlayer, all, ...coded, passing];
    const isEvery = () => own().player === EVERYBODY;
    const unlessEvery = (/** @type {(() => any)[]} */ some) => some.map((it) => () => { if (!isEvery()) it(); });
    /** What panels need of the choice, in the order in which it is computed. */
    const needs = { hands: [order], player: ofPlayer, filters: ofFilters, sum: [...ofFilters, ...unlessEvery([summed])],
        series: [...ofFilters, ...unlessEvery([series])],
        groups: [...ofFilters, ...unlessEvery([summed, keys, groups])],
        list: [...ofFilters, finding, listed, ...unlessEvery([listSum])] };
    return Object.assign(() => choice, { needs });
};

/** @typedef {ReturnType<ReturnType<typeof makeChoice>>} Choice */
