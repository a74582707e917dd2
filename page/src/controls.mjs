// What the user chooses, and what it changes in the state.

import { $ } from './dom.mjs';
import { saveSums } from './figures.mjs';
import { saveGraph } from './graph.mjs';
import { drawnOf, fill } from './panels.mjs';
import { EVERYBODY } from './played.mjs';
import { GROUPS } from './sums.mjs';

/** A search waits until nobody types, in milliseconds. */
const PAUSE = 120;

/**
 * Connects the fields with the state. Returns what clears filters and words.
 * @param {ReturnType<typeof import('./store.mjs').makeStore>} store
 * @param {() => import('./choice.mjs').Choice} choose
 * @param {{ say: (text: string, isBad?: boolean) => void, go: (view: string) => void }} page
 */
export const connectControls = ({ state, set }, choose, { say, go }) => {
    fill($('group'), GROUPS.map((it) => [it, it]), state.group);
    // filters are of the player before, who may have played at other tables
    const pick = (/** @type {string} */ player) => set({ player, unit: '', filters: {}, which: 'all' });
    $('player').onchange = () => pick($('player').value);
    $('other').onchange = () => {
        const name = $('other').value.trim();
        if (choose().named(name).count) pick(name);
        else say(`There is no ${name} in these hands.`, true);
    };
    $('unit').onchange = () => set({ unit: $('unit').value, filters: {} });
    $('by').onchange = () => set({ by: $('by').value });
    $('group').onchange = () => set({ group: $('group').value, sortBy: 0, isRising: true });
    $('left').onclick = () => {
        set({ which: 'rejected', words: '' });
        $('find').value = '';
        go('hands');
    };
    $('all-ins').onclick = () => {
        set({ which: 'all-in', order: 'luck', isUp: false });
        go('hands');
    };
    /** @type {ReturnType<typeof setTimeout> | undefined} */
    let soon;
    $('find').oninput = () => {
        clearTimeout(soon);
        soon = setTimeout(() => set({ words: $('find').value }), PAUSE);
    };
    $('filters-open').onclick = () => {
        const isOpen = $('filters').classList.toggle('opened');
        $('filters-open').setAttribute('aria-expanded', String(isOpen));
        document.documentElement.style.setProperty('--above', `${$('filters').offsetHeight}px`);
    };
    const clearFilters = () => set({ filters: {} });
    $('filters-clear').onclick = clearFilters;
    const graph = () => {
        if (choose().player !== EVERYBODY && choose().played.length)
            saveGraph(document.body, drawnOf(choose(), state), choose().player);
        else say('There is no graph of everybody. Choose a player.', true);
    };
    const sums = () => {
        if (choose().player !== EVERYBODY) saveSums(choose(), state);
        else say('Sums are of one player. Choose a player.', true);
    };
    for (const id of ['keep-graph', 'keep-graph-too']) $(id).onclick = graph;
    for (const id of ['keep-sums', 'keep-all-sums']) $(id).onclick = sums;
    return {
        clearFilters,
        clear: () => {
            $('find').value = '';
            set({ filters: {}, words: '', which: 'all' });
        },
        /** Shows the hands of a group alone. */
        pick: (/** @type {string} */ group, /** @type {string} */ key) => {
            const isNone = ['none', 'no date', `no ${group}`].includes(key), { filters } = choose();
            const isDay = group === 'day' && !isNone, name = group === 'month' || group === 'day' ? 'dates' : group;
            const options = (filters.find((it) => it.name === name) || { options: [] }).options;
            const value = isNone ? 'none' : isDay ? `${key}..${key}` : group === 'session'
                ? (options.find((it) => it.value.startsWith(key)) || { value: '' }).value : key;
            if (isDay || options.some((it) => it.value === value))
                set({ filters: { ...state.filters, [name]: value } });
        }
    };
};
