// The grid of 13 by 13 starting hands, from which a range is chosen by pointer and by keys, and which shows equities.

import { node } from './dom.mjs';
import { fullOf, NAMES } from './range.mjs';

/** @typedef {import('./range.mjs').Range} Range */
/** @typedef {import('./heat.mjs').Warmth} Warmth */
/** @type {{ [key: string]: [number, number] }} */
const STEPS = { ArrowUp: [-1, 0], ArrowDown: [1, 0], ArrowLeft: [0, -1], ArrowRight: [0, 1] };
/**
 * The weight that a key gives to the cell, in percent.
 * @type {{ [key: string]: number }}
 */
const KEYS = { 1: 25, 2: 50, 3: 75, 4: 100, 0: 0, Delete: 0, Backspace: 0 };

/**
 * Shows the grid in a table, and returns a function that marks the chosen cells again.
 * @param {HTMLElement} place
 * @param {{ chosen: () => Range, weight: () => number, heat: () => Map<string, Warmth> | null,
 *     choose: (names: string[], percent: number) => void }} panel  `choose` gives cells a weight in percent, 0 for none
 */
export const showGrid = (place, { chosen, weight, heat, choose }) => {
    /** @type {Map<string, HTMLButtonElement>} */
    const buttons = new Map();
    let focused = NAMES[0][0];
    /**
     * What a drag gives to the cells that it passes, or null if there is none.
     * @type {number | null}
     */
    let given = null;

    const partOf = (/** @type {Range} */ range, /** @type {string} */ name) =>
        (range.cells.get(name) || 0) / fullOf(range);
    const mark = () => {
        const range = chosen(), warm = heat();
        place.classList.toggle('heat', Boolean(warm));
        for (const [name, button] of buttons) {
            const it = warm && warm.get(name), part = warm ? it && it.part || 0 : partOf(range, name);
            button.setAttribute('aria-pressed', warm || part === 0 ? 'false' : part < 1 ? 'mixed' : 'true');
            button.style.setProperty('--part', String(part));
            button.classList.toggle('ahead', Boolean(warm) && part >= 0.5);
            button.tabIndex = name === focused ? 0 : -1;
            button.replaceChildren(name, ...it ? [node('small', it.text)] : []);
            button.title = it && it.part !== null ? `${name}: ${(100 * it.part).toFixed(2)}%`
                : !warm && part > 0 && part < 1 ? `${name}: weight ${Math.round(100 * part)}%` : '';
        }
    };
    const give = (/** @type {string} */ name, /** @type {number} */ percent) => {
        const has = Math.round(100 * partOf(chosen(), name));
        if (heat() || has === percent) return;
        choose([name], percent);
        mark();
    };
    /** What a press of a cell gives to it: the weight, or nothing if it has it already. */
    const turned = (/** @type {string} */ name) => Math.round(100 * partOf(chosen(), name)) === weight() ? 0 : weight();
    const focus = (/** @type {string} */ name) => {
        focused = name;
        mark();
        buttons.get(name)?.focus();
    };
    const nameOf = (/** @type {Element | null} */ it) => it instanceof HTMLElement && it.dataset.name || '';

    const connect = (/** @type {HTMLButtonElement} */ button, /** @type {string} */ name, /** @type {number} */ row,
        /** @type {number} */ column) => {
        // a pointer has chosen already when its click comes
        button.onclick = (event) => { if (!event.detail) give(name, turned(name)); };
        button.onpointerdown = (event) => {
            if (event.button) return;
            focused = name;
            given = turned(name);
            give(name, given);
            // a finger would keep the cell that it began at
            if (button.hasPointerCapture(event.pointerId)) button.releasePointerCapture(event.pointerId);
        };
        button.onkeydown = (event) => {
            if (event.ctrlKey || event.metaKey || event.altKey) return;
            const step = STEPS[event.key], next = step && NAMES[row + step[0]]?.[column + step[1]];
            if (next) {
                // with Shift, the next cell becomes what this one is
                if (event.shiftKey) give(next, Math.round(100 * partOf(chosen(), name)));
                focus(next);
            } else if (event.key in KEYS) give(name, KEYS[event.key]);
            if (step || event.key in KEYS) event.preventDefault();
        };
    };
    place.onpointermove = (event) => {
        if (given === null) return;
        if (!event.buttons) given = null;
        const name = nameOf(document.elementFromPoint(event.clientX, event.clientY)?.closest('button') || null);
        if (given !== null && buttons.has(name)) give(name, given);
    };
    for (const end of ['pointerup', 'pointercancel']) addEventListener(end, () => { given = null; });

    place.replaceChildren();
    NAMES.forEach((names, row) => {
        const line = node('tr');
        names.forEach((name, column) => {
            const kind = name.length === 2 ? 'pair' : name[2] === 's' ? 'suited' : 'offsuit';
            const button = /** @type {HTMLButtonElement} */ (node(`button.${kind}`));
            button.type = 'button';
            button.dataset.name = name;
            connect(button, name, row, column);
            buttons.set(name, button);
            line.append(node('td', button));
        });
        place.append(line);
    });
    mark();
    return mark;
};
