import assert from 'node:assert/strict';
import test from 'node:test';
import { STEP } from '../src/steps.mjs';
import { makeStore } from '../src/store.mjs';

/** A store of a player, a view, and an order. @returns {any} */
const storeOf = (state = {}) => makeStore(/** @type {any} */ ({ player: 'a', by: 'hand', view: 'overview', ...state }));

/** Computes longer than a step, so the store pauses afterwards. */
const compute = () => {
    for (const end = performance.now() + STEP + 1; performance.now() < end;);
};

test('a panel is drawn when a part of the state changes from which it draws', async () => {
    const store = makeStore(/** @type {any} */ ({ player: 'a', by: 'hand' })), drawn = [];
    store.panel(['player'], () => drawn.push('figures'));
    store.panel(['player', 'by'], () => drawn.push('graph'));
    store.set({ by: 'day' });
    await store.drawn();
    store.set({ by: 'day' });
    assert.equal(store.isDrawing(), false);
    store.set({ player: 'b' });
    store.set({ player: 'c' });
    assert.equal(store.isDrawing(), true);
    await store.drawn();
    assert.deepEqual(drawn, ['graph', 'figures', 'figures', 'graph']);
});

test('a panel whose state changes while its needs are computed is drawn once, from the newest state', async () => {
    const store = storeOf(), steps = [];
    const need = (name) => () => {
        steps.push(`${name} ${store.state.player}`);
        // the first change comes in the pause after the first need
        if (store.state.player === 'b') setTimeout(() => store.set({ player: 'c' }));
        compute();
    };
    store.panel(['player'], () => steps.push(`drawn ${store.state.player}`), [], [need('hands'), need('sum')]);
    store.panel(['player'], () => steps.push(`list ${store.state.player}`));
    store.set({ player: 'b' });
    await store.drawn();
    assert.deepEqual(steps, ['hands b', 'sum c', 'hands c', 'sum c', 'drawn c', 'list c']);
});

test('in the end every panel shows the newest state, even if changes come all the time', async () => {
    const store = storeOf(), shown = { figures: '', graph: '', list: '' }, draws = { figures: 0, graph: 0, list: 0 };
    const draw = (name) => () => {
        shown[name] = store.state.player;
        draws[name]++;
    };
    store.panel(['player'], draw('figures'), [], [compute]);
    store.panel(['player'], draw('graph'), ['overview'], [compute, compute]);
    store.panel(['player'], draw('list'), ['hands'], [compute]);
    const changes = 30;
    for (let number = 1; number <= changes; number++) {
        store.set({ player: `p${number}` });
        await new Promise((done) => { setTimeout(done, 1); });
    }
    await store.drawn();
    assert.deepEqual(shown, { figures: `p${changes}`, graph: `p${changes}`, list: '' });
    const before = draws.graph;
    store.set({ view: 'hands' });
    await store.drawn();
    assert.deepEqual([shown.list, draws.graph], [`p${changes}`, before]);
});

test('a panel whose view is left while its needs are computed is drawn once the view is shown again', async () => {
    const store = storeOf(), drawn = [];
    let isLeft = false;
    const leave = () => {
        if (!isLeft) setTimeout(() => store.set({ view: 'files' }));
        isLeft = true;
        compute();
    };
    store.panel(['player'], () => drawn.push(store.state.player), ['overview'], [leave]);
    store.set({ player: 'b' });
    await store.drawn();
    assert.deepEqual(drawn, []);
    store.set({ view: 'overview' });
    await store.drawn();
    assert.deepEqual(drawn, ['b']);
});
