// The panels of the page, each drawn when a part of the state changes from which it draws.

import { $, node } from './dom.mjs';
import { figure, isMoneyOf, leftSentence, showFigures, showSums } from './figures.mjs';
import { showFilters } from './filterbar.mjs';
import { makeGraph } from './graph.mjs';
import { drawList } from './listpanel.mjs';
import { makeLuck } from './luck.mjs';
import { numbersOf } from './ordering.mjs';
import { allInOf, EVERYBODY } from './played.mjs';
import { counted, many } from './progress.mjs';
import { LINES } from './series.mjs';
import { showHeads } from './status.mjs';
import { GROUPS, totalOf } from './sums.mjs';
import { signOf, sumText, unitText } from './words.mjs';

const HANDS = ['version', 'collection', 'isPartial'], PLAYER = [...HANDS, 'player', 'unit'];
export const CHOSEN = [...PLAYER, 'filters'];
const OVERVIEW = ['overview'], BOTH = ['overview', 'hands', 'hand'];

/**
 * Fills a list of choices, chooses one, and shows it.
 * @param {HTMLSelectElement} place
 * @param {[string, string][]} options  values with their texts
 * @param {string} value
 * @param {string} [shown]
 */
export const fill = (place, options, value, shown = value) => {
    place.replaceChildren(...options.map(([it, text]) => new Option(text, it)));
    place.value = value;
    const text = place.parentElement && place.parentElement.querySelector('b');
    if (text) text.textContent = shown;
};

/** @typedef {import('./choice.mjs').Choice} Choice */
/** @typedef {{ open: (hand: number, among?: number[]) => void,
 *     report: (hand: number, mode: string) => Promise<string> }} Ask */

/** Makes the boxes that say which lines of the graph are drawn. */
const fillLines = (/** @type {boolean[]} */ isShown, /** @type {(at: number, isShown: boolean) => void} */ choose) => {
    LINES.forEach((line, at) => {
        const box = /** @type {HTMLInputElement} */ (node('input'));
        box.type = 'checkbox';
        box.checked = isShown[at];
        const label = node('label', box, node(`i.swatch.line${at}`), line[0].toUpperCase() + line.slice(1));
        const mark = () => label.classList.toggle('is-on', box.checked);
        box.onchange = () => {
            mark();
            choose(at, box.checked);
        };
        mark();
        $('lines').append(label);
    });
};

/** Shows what there is of everybody's hands. */
const showEverybody = (/** @type {Choice} */ { hands, entries, left, unit }) => {
    const owed = left.filter(({ hand }) => hands.owed.has(hand)).length;
    const form = { isMoney: unit.startsWith('money'), sign: signOf(unit) };
    const total = (/** @type {'pot' | 'rake'} */ amount) => sumText(totalOf(hands, amount, entries), form);
    $('all-figures').replaceChildren(...[['Hands', counted(entries.length)],
        ['Rejected', counted(left.length)], ['To settle', counted(owed)],
        ...unit ? [['Pots', total('pot')], ['Rake', total('rake')]] : []]
        .map(([name, value]) => figure(name, value, {})));
};

/** What the graph draws. */
export const drawnOf = (/** @type {Choice} */ choice, /** @type {import('./store.mjs').State} */ state) => {
    const { hands, played, unit, series } = choice;
    const { clock } = hands.columns, clocks = numbersOf(series.count, (at) => clock[played[series.at[at]].hand]);
    return { series, clocks, by: state.by, isShown: state.lines, sign: signOf(unit),
        digits: isMoneyOf(choice) ? 2 : 0 };
};

/**
 * Draws all panels from now on, when what they draw from changes.
 * @param {ReturnType<typeof import('./store.mjs').makeStore>} store
 * @param {ReturnType<typeof import('./choice.mjs').makeChoice>} choose
 * @param {Ask} ask
 * @param {{ clear: () => void, pick: (group: string, key: string) => void }} filter
 */
export const drawPanels = (store, choose, ask, filter) => {
    const { state, set, panel } = store, { needs } = choose;
    panel(HANDS, () => {
        showHeads($('heads'), choose(), state.isPartial);
        $('hands-count').textContent = counted(choose().order.length);
    }, [], needs.hands);

    panel(PLAYER, () => {
        const { names, nameCount, named, player, units, unit, order, isEvery } = choose(), some = [...names];
        if (!isEvery && player && !some.some((it) => it.name === player)) some.unshift(named(player));
        fill($('player'), [...some.map(({ name, count }) =>
            /** @type {[string, string]} */ ([name, `${name} (${counted(count)})`])),
        [EVERYBODY, `everybody (${counted(order.length)})`]], player, isEvery ? 'everybody' : player);
        $('player').parentElement.classList.toggle('set', isEvery);
        $('others').hidden = nameCount <= names.length;
        const any = isEvery ? [['', 'any']] : [];
        fill($('unit'), /** @type {[string, string][]} */ ([...any, ...units.map((it) => [it, it])]), unit,
            unitText(unit) || (unit ? unit : 'any'));
    }, [], needs.player);

    panel(CHOSEN, () => {
        showFilters($('picks'), choose(), state.filters, (filters) => set({ filters }));
        const count = Object.keys(state.filters).length;
        $('filters-clear').hidden = !count;
        $('filters-open').textContent = count ? `Filters (${count})` : 'Filters';
        document.documentElement.style.setProperty('--above', `${$('filters').offsetHeight}px`);
    }, BOTH, needs.filters);

    panel(CHOSEN, () => {
        const choice = choose(), { isEvery } = choice;
        $('everybody').hidden = !isEvery;
        $('shown').hidden = isEvery || !choice.order.length;
        if (isEvery) {
            showEverybody(choice);
            return;
        }
        showFigures($('figures'), choice);
        const left = leftSentence(choice);
        $('left-out').hidden = !left;
        $('left-text').textContent = left;
    }, OVERVIEW, needs.sum);

    const draw = makeGraph($('graph'), $('legend'), (at) => ask.open(choose().played[at].hand,
        choose().played.map(({ hand }) => hand)));
    panel([...CHOSEN, 'by', 'lines'], () => {
        if (choose().isEvery) return;
        const drawn = drawnOf(choose(), state), { without } = drawn.series, verb = without === 1 ? 'has' : 'have';
        fill($('by'), [['hand', 'hand'], ['day', 'day'], ['session', 'session']], state.by);
        draw(drawn);
        $('without').textContent = without ? `The graph is without ${many(without, 'hand')} that ${verb} no date.` : '';
    }, OVERVIEW, needs.series);
    fillLines(state.lines, (at, isShown) => set({ lines: state.lines.map((it, key) => key === at ? isShown : it) }));

    const sort = (/** @type {number} */ column) =>
        set({ sortBy: column, isRising: state.sortBy === column ? !state.isRising : column === 0 });
    panel([...CHOSEN, 'group', 'sortBy', 'isRising'], () => {
        fill($('group'), GROUPS.map((it) => [it, it]), state.group);
        if (!choose().isEvery)
            showSums($('groups'), choose(), state, { sort, pick: (key) => filter.pick(state.group, key) });
    }, OVERVIEW, needs.groups);

    // all-ins are counted again, so not while files are read
    const luck = makeLuck($('luck'), ask);
    panel(CHOSEN, () => {
        if (state.isPartial || choose().isEvery) return;
        const { hands, played } = choose(), count = played.filter((it) => allInOf(hands, it)).length;
        $('all-ins').textContent = `All ${many(count, 'all-in')}`;
        luck(choose());
    }, OVERVIEW, needs.filters);

    return drawList(store, choose, ask, filter.clear);
};
