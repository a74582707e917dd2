// The page: what is dropped on it, what it shows, and what is asked of it.

import { $ } from './dom.mjs';
import { makeChoice } from './choice.mjs';
import { connectControls } from './controls.mjs';
import { openDoors } from './doors.mjs';
import { startEngines } from './engines.mjs';
import { showFiles } from './filesview.mjs';
import { showPicture } from './home.mjs';
import { makeKeep } from './keepers.mjs';
import { connectKeys } from './keys.mjs';
import { connectHand } from './opened.mjs';
import { drawPanels } from './panels.mjs';
import { handAt, playedBy, unitsOf } from './played.mjs';
import { written } from './reports.mjs';
import { seriesOf } from './series.mjs';
import { bytesOf } from './source.mjs';
import { makeSpots } from './spots.mjs';
import { firstState, makeStore } from './store.mjs';
import { sumOf } from './sums.mjs';
import { makeTakes } from './takes.mjs';
import { numbered } from './texts.mjs';
import { makeViews } from './views.mjs';

const store = makeStore(firstState());
const { state, set } = store, choose = makeChoice(state);

/**
 * Says something to the user.
 * @param {string} text
 * @param {boolean} [isBad]
 */
const say = (text, isBad = false) => {
    $('note').textContent = text;
    $('note').className = isBad ? 'bad' : '';
    $('reading').hidden = !text;
};
$('dismiss').onclick = () => say('');

/** Resolves once the program can run. */
export const ready = startEngines();
ready.then(() => say(''), () => {
    say('This browser can\'t run the program. Chrome and Edge from 109 on can, Firefox from 115 on, and Safari ' +
        'from 16.4 on.',
        true);
    $('drop').hidden = true;
    $('ask').hidden = true;
});

/** Runs the program for one hand or one spot. Of spots the latest line alone is counted. */
export const run = async (/** @type {string} */ mode, /** @type {string} */ form, /** @type {Uint8Array} */ input,
    /** @type {'spots' | 'hands'} */ pool = 'hands') => {
    const engines = await ready;
    return engines[pool].run({ mode, form, input }, [input.buffer]);
};
const report = async (/** @type {string} */ mode, /** @type {string} */ form, /** @type {Uint8Array} */ input,
    /** @type {'spots' | 'hands'} */ pool = 'hands') =>
    new TextDecoder().decode((await run(mode, form, input, pool)).report);

export const answer = makeSpots({
    field: $('spot'),
    answer: $('answer'),
    grid: $('grid'),
    whose: $('whose'),
    clear: $('clear'),
    chosen: $('chosen'),
    report: async (mode, input) => {
        (await ready).spots.stop();
        return report(mode, 'text', input, 'spots');
    },
    workers: ready.then(({ spots }) => spots)
});

// beside the line there is room for the grid
$('choose').open = matchMedia('(min-width: 1000px)').matches;

/** Asks a line as a spot, as if somebody typed it. */
const ask = (/** @type {string} */ line) => {
    views.go('spots');
    $('spot').value = line;
    $('spot').dispatchEvent(new Event('input', { bubbles: true }));
};
const hand = connectHand(choose, { report, ask, say, views: () => views });
export const { open } = hand;
const controls = connectControls(store, choose, { say, go: (view) => views.go(view) });
const list = drawPanels(store, choose, hand, controls);

/** Shows the bars above a view: filters, and whose hands these are. */
const showBars = () => {
    const { view, collection, collections } = state, isWide = matchMedia('(min-width: 1680px)').matches;
    $('filters').hidden = !['overview', 'hands'].includes(view) && !(isWide && view === 'hand');
    $('is-example').hidden = collection !== 'example' || ['home', 'spots'].includes(view);
    $('back').hidden = !collections.own.count;
};
export const views = makeViews({
    onView: (view) => {
        // one field for spots: first sight has it too
        $(view === 'home' ? 'ask-home' : 'ask-spots').append($('ask'));
        set({ view });
        showBars();
        if (view !== 'hand' && view !== 'sheet') hand.hide();
        if (view === 'hands') store.drawn().then(() => list.focus());
    },
    onHand: (it, at, count) => {
        hand.show(it, at, count);
        store.drawn().then(() => list.mark(it));
    }
});
$('ask-home').append($('ask'));

const takes = makeTakes(store, { ready, views, say, onShow: showBars });
export const { take, takeExample, stop, clear, missed, isReading } = takes;
/** Whether files are read, or panels wait to be drawn. */
export const isBusy = () => isReading() || store.isDrawing();

/** Resolves once first sight has its picture. */
export const picture = ready.then(takes.readExample).then(() => {
    const { example } = state.collections;
    return showPicture(example, async (it, mode) =>
        report(mode, 'csv', numbered(await bytesOf(example, it), handAt(example, it).line)));
});
// without the program there is no picture
picture.catch(() => {});

export const keep = makeKeep(state, choose, ready);
store.panel(['version', 'collection'], () => showFiles(state.collections[state.collection],
    state.collection === 'own' ? missed() : [], state.collection === 'example'), ['files']);
$('back').onclick = takes.back;
$('stop').onclick = stop;
$('clear-all').onclick = clear;
openDoors({ take, takeExample, say, isReading });
const step = (/** @type {number} */ by) => () => views.step(by);
connectKeys(() => state.view, {
    any: {},
    overview: { x: controls.clearFilters },
    hands: { x: controls.clearFilters, '/': () => $('find').focus() },
    hand: { ArrowLeft: step(-1), ArrowRight: step(1), k: step(-1), j: step(1), c: hand.copy,
        p: () => views.go('sheet'), Escape: () => views.go('hands') },
    sheet: { p: () => print(), Escape: () => history.back() }
});
// for the tests
export { choose, state, store, handAt, playedBy, seriesOf, sumOf, unitsOf, written };
