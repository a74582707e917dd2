// The list of hands: sorted by any column, and drawn as one scrolls, so a hundred thousand hands are in reach.

import { codesIn } from './cards.mjs';
import { button, having, head, node } from './dom.mjs';
import { rowNode } from './listrow.mjs';
import { heightOf, scrollTo, windowOf } from './sorting.mjs';
import { unitText } from './words.mjs';

/** @typedef {import('./choice.mjs').Choice} Choice */
/** @typedef {import('./played.mjs').Played} Played */

/** The columns, each with its name in the state. Those with a 1 have numbers. */
const COLUMNS = [
    ['time', 'Time'], ['stakes', 'Stakes'], ['cards', 'Cards'], ['board', 'Board'], ['position', 'Pos.'],
    ['pot', 'Pot', 1], ['net', 'Net', 1], ['luck', 'Luck', 1], ['all-in', 'All-in'], ['verdict', 'Verdict'],
    ['number', 'Number', 1]
];
const OF_UNIT = ['pot', 'net', 'luck'], ROW = 34, TALL_ROW = 58, NARROW = 520, PRINTED = 2000, FEW_CARDS = 2;

/** @type {{ [key: string]: number }} */
const STEPS = { ArrowDown: 1, ArrowUp: -1, PageDown: 15, PageUp: -15, Home: -Infinity, End: Infinity };

/**
 * Makes the list in a place. `open` opens a hand, `sort` sorts by a column, and `clear` clears filters and words.
 * @param {HTMLElement} place
 * @param {{ open: (hand: number) => void, sort: (column: string) => void, clear: () => void }} ask
 */
export const makeList = (place, { open, sort, clear }) => {
    /** @type {Choice | null} */
    let choice = null;
    /** @type {Played[]} */
    let rows = [];
    /** @type {HTMLElement | null} */
    let body = null;
    /** @type {Map<number, HTMLElement>} */
    let drawn = new Map();
    let current = 0, opened = -1, isWhole = false, shown = '';

    const shape = () => ({ count: rows.length, size: place.clientWidth <= NARROW ? TALL_ROW : ROW,
        scroll: place.scrollTop, height: place.clientHeight });
    // room above and below the rows that are drawn
    const gaps = [0, 1].map(() => having(node('tr.gap', node('td')), { 'aria-hidden': 'true' }));
    const setGap = (/** @type {number} */ at, /** @type {number} */ height) => {
        /** @type {HTMLElement} */ (gaps[at].firstChild).style.height = `${height}px`;
    };
    const focusedRow = () => {
        const it = document.activeElement && document.activeElement.closest('tr[data-at]');
        return it instanceof HTMLElement && place.contains(it) ? Number(it.dataset.at) : -1;
    };
    const rowAt = (/** @type {number} */ at) =>
        /** @type {HTMLElement | null} */ (place.querySelector(`tr[data-at="${at}"]`));

    /** Draws the rows that are seen. Rows that stay keep their nodes, and with them the focus. */
    const paint = () => {
        if (!body || !choice) return;
        const it = choice, { from, to, above, below } = isWhole
            ? { from: 0, to: Math.min(rows.length, PRINTED), above: 0, below: 0 } : windowOf(shape());
        const focused = focusedRow(), { scrollTop } = place, old = drawn;
        /** @type {HTMLElement[][]} */
        const [early, late] = [[], []];
        const [least = Infinity] = [...old.keys()].filter((at) => at >= from && at < to);
        drawn = new Map();
        for (let at = from; at < to; at++) {
            let row = old.get(at);
            if (!row) {
                row = having(rowNode(it, rows[at]), { 'data-at': at, 'aria-rowindex': at + 2 });
                (at < least ? early : late).push(row);
            }
            having(row, { tabindex: at === current ? 0 : -1, 'aria-selected': String(rows[at].hand === opened) });
            drawn.set(at, row);
        }
        // new rows come before the old ones go, because a browser forgets how far a list that gets short is scrolled
        (old.get(least) || gaps[1]).before(...early);
        gaps[1].before(...late);
        setGap(0, above);
        setGap(1, below);
        for (const [at, row] of old) if (!drawn.has(at)) row.remove();
        if (place.scrollTop !== scrollTop) place.scrollTop = scrollTop;
        // a row that was scrolled away takes the focus with it, so the list has it
        if (focused >= 0 && !drawn.has(focused)) place.focus({ preventScroll: true });
    };
    const goTo = (/** @type {number} */ at) => {
        current = Math.max(0, Math.min(rows.length - 1, at));
        place.scrollTop = scrollTo(shape(), current);
        paint();
        const row = rowAt(current);
        if (row) row.focus({ preventScroll: true });
    };
    const placeOf = (/** @type {Event} */ event) => {
        const row = event.target instanceof Element ? event.target.closest('tr[data-at]') : null;
        return row instanceof HTMLElement ? Number(row.dataset.at) : -1;
    };
    place.tabIndex = -1;
    // a browser tells of a scroll once a frame
    place.onscroll = paint;
    place.onclick = (event) => {
        const at = placeOf(event);
        if (at >= 0) {
            current = at;
            open(rows[at].hand);
        }
    };
    place.onkeydown = (event) => {
        const at = event.target === place ? current : placeOf(event), step = STEPS[event.key];
        if (at < 0) return;
        if (event.key === 'Enter' && rows[at]) open(rows[at].hand);
        if (step === undefined) return;
        event.preventDefault();
        goTo(at + step);
    };
    new ResizeObserver(paint).observe(place);
    for (const [name, whole] of /** @type {[string, boolean][]} */ ([['beforeprint', true], ['afterprint', false]]))
        addEventListener(name, () => { isWhole = whole; paint(); });

    const headOf = (/** @type {string} */ order, /** @type {boolean} */ isUp) => node('tr',
        ...COLUMNS.map(([column, name, isNumber]) => {
            const unit = choice && choice.unit && OF_UNIT.includes(String(column)) ? `, ${unitText(choice.unit)}` : '';
            const it = head('col', `th.col-${column}${isNumber ? '.number' : ''}`,
                button(`${name}${unit}`, () => sort(String(column))));
            if (column === order) it.setAttribute('aria-sort', isUp ? 'ascending' : 'descending');
            return it;
        }));

    /**
     * Shows a list anew: from its first row, or if only hands were added, from where it was.
     * @param {Choice} next
     * @param {import('./store.mjs').State} state
     */
    const show = (next, { order, isUp, filters, words, which }) => {
        const asked = JSON.stringify([next.player, next.unit, filters, words, which, order, isUp]);
        const scroll = asked === shown ? place.scrollTop : 0, focused = focusedRow();
        const before = document.activeElement && document.activeElement.closest('th');
        const column = before && place.contains(before) ? before.className.split(' ')[0] : '';
        choice = next;
        rows = next.listed;
        current = asked === shown ? Math.min(current, Math.max(0, rows.length - 1)) : 0;
        shown = asked;
        place.classList.toggle('every', next.isEvery);
        place.classList.toggle('wide-cards', rows.slice(0, PRINTED).some(({ row }) => row >= 0
            && codesIn(next.hands.columns.cards[row]).length > FEW_CARDS));
        if (!rows.length) {
            body = null;
            place.replaceChildren(node('p.empty', 'No hand fits. ', button('Clear filters and words', clear,
                'button.link')));
            return;
        }
        body = node('tbody', ...gaps);
        drawn = new Map();
        // the list is as high as it will be before its rows are drawn, so it can be scrolled to them
        setGap(0, heightOf(shape()));
        setGap(1, 0);
        place.replaceChildren(having(node('table', node('thead', headOf(order, isUp)), body),
            { 'aria-rowcount': rows.length + 1, 'aria-label': 'Hands' }));
        place.scrollTop = scroll;
        paint();
        const again = focused >= 0 ? rowAt(current) : column && place.querySelector(`.${column} button`);
        if (again instanceof HTMLElement) again.focus({ preventScroll: true });
    };
    return {
        show,
        /** Marks an opened hand, and scrolls to it. */
        mark: (/** @type {number} */ hand) => {
            opened = hand;
            const at = rows.findIndex((it) => it.hand === hand);
            if (at >= 0 && place.clientHeight) {
                current = at;
                place.scrollTop = scrollTo(shape(), at);
            }
            paint();
        },
        /** Puts the focus on the row of the hand that was opened last. */
        focus: () => { if (rows.length) goTo(current); }
    };
};
