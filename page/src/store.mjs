// One state of the page, and panels that draw from it.

import { noHands } from './hands.mjs';
import { LINES } from './series.mjs';
import { pause, STEP } from './steps.mjs';

/** @typedef {import('./hands.mjs').Hands} Hands */

/**
 * What was dropped and what is chosen. `version` rises whenever hands came or went. `collection` says whose hands are
 * shown, and `view` which view is. Of the list there are the words to find, which hands it shows, and its order.
 * @typedef {{ collections: { own: Hands, example: Hands }, collection: 'own' | 'example', version: number,
 *     isPartial: boolean, view: string, player: string, unit: string, filters: { [filter: string]: string },
 *     by: string, lines: boolean[], group: string, sortBy: number, isRising: boolean, words: string, which: string,
 *     order: string, isUp: boolean }} State
 */

/**
 * Returns the state of a page without hands.
 * @returns {State}
 */
export const firstState = () => ({
    collections: { own: noHands(), example: noHands() },
    collection: 'own',
    version: 0,
    isPartial: false,
    view: 'home',
    player: '',
    unit: '',
    filters: {},
    by: 'hand',
    lines: LINES.map(() => true),
    group: 'month',
    sortBy: 0,
    isRising: true,
    words: '',
    which: 'all',
    order: 'time',
    isUp: false
});

/**
 * Makes a store. A panel names the parts of the state that it draws from, and is drawn when one of them changes, once
 * one of its views is shown. Panels are drawn one after the other, each in a task of its own, and what takes long to
 * compute for them is computed before, in tasks of its own. So the page answers between them.
 * @param {State} state
 */
export const makeStore = (state) => {
    /** @typedef {{ keys: string[], draw: () => void, views: string[], needs: (() => void)[] }} Panel */
    /** @type {Panel[]} */
    const panels = [];
    /** @type {Set<Panel>} */
    const waiting = new Set();
    /** @type {Promise<void> | null} */
    let drawing = null;
    const isSeen = (/** @type {Panel} */ { views }) => !views.length || views.includes(state.view);
    const next = () => panels.find((it) => waiting.has(it) && isSeen(it));
    const drawAll = async () => {
        for (let panel; (panel = next());) {
            waiting.delete(panel);
            let begun = performance.now();
            for (const need of panel.needs) {
                need();
                if (performance.now() - begun < STEP) continue;
                await pause();
                begun = performance.now();
            }
            // what it draws from may have changed meanwhile, and so may the view
            if (waiting.has(panel)) continue;
            if (isSeen(panel)) panel.draw();
            else waiting.add(panel);
            await pause();
        }
    };
    return {
        state,
        /**
         * @param {string[]} keys
         * @param {() => void} draw
         * @param {string[]} [views]  all views if none is named
         * @param {(() => void)[]} [needs]  what is computed before, and kept
         */
        panel: (keys, draw, views = [], needs = []) => { panels.push({ keys, draw, views, needs }); },
        /** @param {Partial<State>} changes */
        set: (changes) => {
            const [before, after] = /** @type {any[]} */ ([state, changes]);
            const changed = Object.keys(changes).filter((key) => before[key] !== after[key]);
            Object.assign(state, changes);
            for (const panel of panels) if (panel.keys.some((key) => changed.includes(key))) waiting.add(panel);
            if (!drawing && next()) drawing = drawAll().finally(() => { drawing = null; });
        },
        isDrawing: () => drawing !== null,
        /** Resolves once all panels of the view are drawn. */
        drawn: async () => { while (drawing) await drawing; },
    };
};
