// The panel of the list of hands: which hands it shows, what was won in them, and the list.

import { WHICH } from './choice.mjs';
import { $, having, node } from './dom.mjs';
import { isMoneyOf } from './figures.mjs';
import { makeList } from './list.mjs';
import { counted, many } from './progress.mjs';
import { signOf, sumText, toneOf } from './words.mjs';

/** @typedef {import('./choice.mjs').Choice} Choice */

/** What the list draws from. */
const KEYS = ['version', 'collection', 'isPartial', 'player', 'unit', 'filters', 'words', 'which', 'order', 'isUp'];

/** The names of what the list can show, in the order of `WHICH`. */
const WHICH_TEXTS = ['All', 'All-ins', 'Rejected', 'To settle'];

/** Makes the buttons that say which hands the list shows, and returns what marks them. */
const fillWhich = (/** @type {(which: string) => void} */ choose) => {
    const counts = WHICH.map((which, at) => {
        const box = /** @type {HTMLInputElement} */ (having(node('input'), { type: 'radio', name: 'which' }));
        const count = node('i');
        box.value = which;
        box.onchange = () => choose(which);
        $('which').append(node('label', box, node('span', WHICH_TEXTS[at], ' ', count)));
        return { box, count };
    });
    return (/** @type {string} */ which, /** @type {number[]} */ found) => counts.forEach(({ box, count }, at) => {
        box.checked = box.value === which;
        count.textContent = counted(found[at]);
    });
};

/** Shows how many hands are listed, and what was won in them. */
const showListSum = (/** @type {Choice} */ choice) => {
    const { listed, isEvery, unit } = choice, count = node('b', many(listed.length, 'hand'));
    if (isEvery) {
        $('list-sum').replaceChildren(count, ' of everybody');
        return;
    }
    const sum = choice.listSum;
    const form = { isMoney: isMoneyOf(choice), sign: signOf(unit), plus: true };
    const amount = (/** @type {bigint} */ it) => node(`b.${toneOf(it) || 'soft'}`, sumText(it, form));
    $('list-sum').replaceChildren(count, ', won ', amount(sum.net), ', luck ', amount(sum.net - sum.even));
};

/**
 * Draws the list from now on, when what it draws from changes.
 * @param {ReturnType<typeof import('./store.mjs').makeStore>} store
 * @param {ReturnType<typeof import('./choice.mjs').makeChoice>} choose
 * @param {{ open: (hand: number) => void }} ask
 * @param {() => void} clear  clears filters and words
 */
export const drawList = ({ state, set, panel }, choose, { open }, clear) => {
    const sort = (/** @type {string} */ column) =>
        set({ order: column, isUp: state.order === column ? !state.isUp : false });
    const list = makeList($('list'), { open, sort, clear }), mark = fillWhich((which) => set({ which }));
    panel(KEYS, () => {
        mark(state.which, choose().found.counts);
        showListSum(choose());
        list.show(choose(), state);
    }, ['hands', 'hand'], choose.needs.list);
    return list;
};
