// What is dropped on the page: files of the user, and the example, whose hands are kept apart.

import { $ } from './dom.mjs';
import { markMissed } from './filesview.mjs';
import { noHands } from './hands.mjs';
import { makeReader } from './reader.mjs';
import { barOf, readingSentence } from './status.mjs';
import { firstState } from './store.mjs';

/** @typedef {import('./dropped.mjs').Source} Source */
/** @typedef {ReturnType<typeof makeReader>} Reader */

/** While files are read, the figures so far are drawn at most so often, in milliseconds. */
const OFTEN = 500;

/**
 * Connects the readers of files with the page.
 * @param {ReturnType<typeof import('./store.mjs').makeStore>} store
 * @param {{ ready: ReturnType<typeof import('./engines.mjs').startEngines>, views: import('./views.mjs').Views,
 *     say: (text: string, isBad?: boolean) => void, onShow: () => void }} page
 */
export const makeTakes = (store, { ready, views, say, onShow }) => {
    const { state, set } = store;
    /** @type {{ [collection: string]: Reader }} */
    const readers = {};
    let drawn = 0;
    const missed = () => readers.own ? readers.own.reading.missed : [];
    const isReading = () => Boolean(readers.own && readers.own.reading.isReading);

    /**
     * Shows how far the reading of a collection is.
     * @param {'own' | 'example'} collection
     */
    const follow = (collection) => () => {
        // a reader that was cleared may still end a piece
        if (!readers[collection]) return;
        const { reading } = readers[collection], { count } = state.collections[collection], now = performance.now();
        if (collection === 'own') {
            $('stop').hidden = !reading.isReading;
            $('dismiss').hidden = reading.isReading;
            barOf($('bar'), reading);
            say(readingSentence(reading, count, now));
        }
        if (reading.isReading && (store.isDrawing() || now - drawn < OFTEN)) return;
        markMissed(missed());
        if (state.collection !== collection || !count && reading.isReading) return;
        set({ version: state.version + 1, isPartial: reading.isReading });
        if (collection === 'own' && (count || missed().length)) {
            views.setHands(true);
            if (views.view === 'home') views.go(count ? 'overview' : 'files');
        }
        store.drawn().then(() => { drawn = performance.now(); });
    };

    /** @param {'own' | 'example'} collection */
    const readerOf = async (collection) => {
        const { files } = await ready;
        if (!readers[collection])
            readers[collection] = makeReader(state.collections[collection], files, follow(collection));
        return readers[collection];
    };

    /**
     * Shows the hands of a collection.
     * @param {'own' | 'example'} collection
     */
    const show = (collection) => {
        const { collections, view, version } = state;
        set({ ...firstState(), collections, view, collection, version: version + 1 });
        $('find').value = '';
        onShow();
    };

    /** Reads the example, once. */
    const readExample = async () => {
        const reader = await readerOf('example'), text = $('histories').textContent.replace(/^\n/, '');
        if (!state.collections.example.sources.length)
            await reader.add([{ path: 'example.txt', file: new File([text], 'example.txt') }]);
        while (reader.reading.isReading) await new Promise((done) => { setTimeout(done, 10); });
    };
    const stop = () => { if (readers.own) readers.own.stop(); };

    return {
        missed,
        isReading,
        stop,
        readExample,
        back: () => show('own'),
        /**
         * Reads some files, after those that are being read.
         * @param {Source[]} sources
         */
        take: async (sources) => {
            if (!sources.length) return;
            const reader = await readerOf('own');
            if (state.collection === 'example') show('own');
            await reader.add(sources);
            await store.drawn();
        },
        /** Shows the example. */
        takeExample: async () => {
            await readExample();
            show('example');
            views.setHands(true);
            views.go('overview');
            await store.drawn();
        },
        /** Forgets all hands of the user. */
        clear: () => {
            stop();
            state.collections.own = noHands();
            delete readers.own;
            markMissed([]);
            show('own');
            say('');
            views.setHands(false);
            views.go('home');
        }
    };
};
