// Which view is shown, and the way back. The address has the name of the view alone, and the history of the browser has
// a place in a list that is in memory. So after a reload, the page shows first sight.

import { $ } from './dom.mjs';

const VIEWS = ['home', 'overview', 'hands', 'hand', 'sheet', 'spots', 'files'];
const OF_HANDS = ['overview', 'hands', 'files'];

/** @typedef {{ view: string, list?: number, at?: number }} Stop */

/**
 * Makes the views. `onView` runs when another view is shown, and `onHand` when a hand of a list is.
 * @param {{ onView: (view: string) => void, onHand: (hand: number, at: number, count: number) => void }} page
 */
export const makeViews = ({ onView, onHand }) => {
    /** @type {ArrayLike<number>} */
    let list = [];
    let now = 'home', at = -1, number = 0, hasHands = false;
    const bare = location.href.split('#')[0];

    const mark = () => {
        for (const it of document.querySelectorAll('[data-to]')) {
            const tab = /** @type {HTMLElement} */ (it), to = String(tab.dataset.to);
            if (!tab.classList.contains('brand'))
                tab.hidden = to === 'home' ? hasHands : OF_HANDS.includes(to) && !hasHands;
            const isHere = to === now || to === 'hands' && (now === 'hand' || now === 'sheet');
            if (isHere) tab.setAttribute('aria-current', 'page');
            else tab.removeAttribute('aria-current');
        }
    };
    /** @param {Stop} stop */
    const show = (stop) => {
        const before = now;
        now = stop.view;
        document.body.dataset.view = now;
        // on a wide screen the list stays beside the hand
        const isWide = matchMedia('(min-width: 1680px)').matches;
        for (const view of VIEWS) {
            $(`view-${view}`).hidden = view !== now && !(isWide && view === 'hands' && now === 'hand')
                && !(view === 'sheet' && now === 'hand');
        }
        $('view-sheet').classList.toggle('for-paper', now === 'hand');
        mark();
        onView(now);
        if (now === 'hand' && stop.at !== undefined) {
            at = stop.at;
            onHand(list[at], at, list.length);
        }
        if (before === now) return;
        if (!(isWide && now === 'hand')) scrollTo(0, 0);
        // who goes on by keyboard or hears the page is told where they are
        const head = $(`view-${now}`).querySelector('h1');
        if (head) {
            head.tabIndex = -1;
            head.focus({ preventScroll: true });
        }
    };
    /** @param {Stop} stop */
    const go = (stop) => {
        history.pushState(stop, '', stop.view === 'home' ? bare : `${bare}#${stop.view}`);
        show(stop);
    };

    history.replaceState({ view: 'home' }, '', bare);
    addEventListener('popstate', ({ state }) => {
        /** @type {Stop} */
        const stop = state && VIEWS.includes(state.view) ? state : { view: 'home' };
        const isGone = OF_HANDS.includes(stop.view) && !hasHands;
        // an entry of an older list names no hand any more
        const isOld = (stop.view === 'hand' || stop.view === 'sheet') &&
            (stop.list !== number || stop.at === undefined || stop.at >= list.length);
        show(isGone ? { view: 'home' } : isOld ? { view: hasHands ? 'hands' : 'home' } : stop);
    });
    document.addEventListener('click', (event) => {
        const link = event.target instanceof Element ? event.target.closest('[data-to]') : null;
        if (!(link instanceof HTMLElement)) return;
        event.preventDefault();
        const to = String(link.dataset.to);
        go({ view: to });
    });
    mark();

    return {
        get view() { return now; },
        go: (/** @type {string} */ view) => { if (view !== now) go({ view, list: number, at }); },
        /** Says whether there are hands, of which most views are. */
        setHands: (/** @type {boolean} */ has) => {
            if (has === hasHands) return;
            hasHands = has;
            mark();
        },
        /**
         * Opens a hand of a list.
         * @param {ArrayLike<number>} among
         * @param {number} hand
         */
        open: (among, hand) => {
            const place = Array.prototype.indexOf.call(among, hand);
            list = place < 0 ? [hand] : among;
            number++;
            go({ view: 'hand', list: number, at: Math.max(0, place) });
        },
        /** Goes on to another hand of the list. */
        step: (/** @type {number} */ by) => {
            const place = at + by;
            if (now === 'hand' && place >= 0 && place < list.length) go({ view: 'hand', list: number, at: place });
        },
        /** Returns the opened hand, or -1. */
        hand: () => at >= 0 && at < list.length ? list[at] : -1,
    };
};

/** @typedef {ReturnType<typeof makeViews>} Views */
