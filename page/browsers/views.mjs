// What each engine shows of a month: the list, a hand as a story, a street as a spot, and the way in between by keys; see page/test

import { readFileSync } from 'node:fs';
import { join } from 'node:path';
import { examples, expect, own } from './tab.mjs';

const HANDS = ['7411', '7500000001', '7500000002', '7500000003', '7500000005'];
const texts = ['streets', 'mixed'].map((it) => readFileSync(join(examples, `${it}.txt`), 'utf8')).join('\n').split(/(?=^PokerStars )/m);
const handOf = (number) => texts.find((it) => it.includes(`#${number}:`));

/** Presses a key where the focus is. */
const press = (run, key) => run(`((document.activeElement || document.body).dispatchEvent(new KeyboardEvent('keydown', { key: ${JSON.stringify(key)}, bubbles: true, cancelable: true })), 0)`);

/** The list draws few rows of many, sorts by each column, finds, and goes by keys. */
export const list = async (tab) => {
    const { run } = tab, drawn = () => run('page.store.drawn().then(() => new Promise((done) => setTimeout(() => done(0), 50)))');
    await tab.view('hands');
    const rows = () => run(`[...document.querySelectorAll('#list tr[data-at]')].map((it) => it.querySelector('.col-number').textContent)`);
    const all = await run('page.choose().listed.length'), [first] = await rows();
    expect((await rows()).length < 90 && all > 90, `few rows of ${all} are drawn`);
    await run(`(document.getElementById('list').scrollTop = 1e7, 0)`);
    const last = await run(`(() => { const { hands, listed } = page.choose(); return hands.numbers[listed[listed.length - 1].hand]; })()`);
    const isLast = await tab.until(`[...document.querySelectorAll('#list tr[data-at]')].pop().querySelector('.col-number').textContent === ${JSON.stringify(last)}`);
    expect(isLast && (await rows())[0] !== first, `the last hand is in reach: ${last}`);
    for (const column of ['stakes', 'cards', 'board', 'position', 'pot', 'net', 'luck', 'all-in', 'verdict', 'number', 'time']) {
        const [falls, rises] = [await run(`(document.querySelector('#list th.col-${column} button').click(), page.store.drawn().then(() => document.querySelector('#list th.col-${column}').getAttribute('aria-sort')))`),
            await run(`(document.querySelector('#list th.col-${column} button').click(), page.store.drawn().then(() => document.querySelector('#list th.col-${column}').getAttribute('aria-sort')))`)];
        expect(falls === 'descending' && rises === 'ascending', `the list sorts by ${column}: ${falls}, ${rises}`);
    }
    await run(`(document.getElementById('find').value = ${JSON.stringify(last)}, document.getElementById('find').oninput(), new Promise((done) => setTimeout(() => done(page.store.drawn()), 300)))`);
    expect((await rows()).join() === last, `a hand is found by its number: ${await rows()}`);
    await run('page.views.go("overview")');
    await run(`(page.store.set({ words: '' }), document.getElementById('find').value = '', 0)`);
    await tab.view('hands');
    await run(`(document.querySelector('#list tr[data-at="0"]').focus(), 0)`);
    for (const key of ['ArrowDown', 'ArrowDown', 'ArrowUp', 'Enter']) await press(run, key);
    expect(await tab.until('page.views.view === "hand"'), 'Enter opens a hand');
    await tab.until('document.getElementById("place").textContent.startsWith("2 of ")');
    await press(run, 'ArrowRight');
    expect(await tab.until('document.getElementById("place").textContent.startsWith("3 of ")'), `the right arrow opens the next hand: ${await tab.text('place')}`);
    await press(run, 'p');
    expect(await run('page.views.view') === 'sheet', 'p shows the sheet');
    await press(run, 'Escape');
    expect(await tab.until('page.views.view === "hand"'), 'Escape goes back');
    await press(run, 'Escape');
    expect(await run('page.views.view') === 'hands', 'Escape goes back to the list');
    await drawn();
};

/** Each street of an all-in has the program's equities, and asked as a spot it gives the same. */
export const stories = async (tab) => {
    const { run } = tab;
    for (const number of HANDS) {
        const records = own(handOf(number), 'streets', '--format', 'csv').stdout.toString().trim().split('\n').map((it) => it.split(','));
        await tab.open(number);
        const bars = await run(`[...document.querySelectorAll('#body .eq .pct')].map((it) => it.firstChild.textContent)`);
        const parts = records.filter((it) => it[0] === 'pot' && it[2] === 'ev').map((it) => `${(Number(it[3]) * 100).toFixed(1)} %`);
        expect(parts.length > 1 && bars.join() === parts.join(), `the equities of ${number}: ${bars} and ${parts}`);
        const count = await run(`document.querySelectorAll('#body .street > header button').length`);
        expect(count === records.filter((it) => (it[0] === 'all-in' || it[0] === 'street') && it[3] !== '1').length, `each street of ${number} can be asked`);
        let street = 0;
        for (const start of records.flatMap((it, at) => (it[0] === 'all-in' || it[0] === 'street') && it[3] !== '1' ? [at] : [])) {
            await tab.open(number);
            await run(`(document.querySelectorAll('#body .street > header button')[${street++}].click(), 0)`);
            const line = await run(`document.getElementById('spot').value`), told = own(`${line}\n`, 'spots').stdout.toString();
            const evs = [...told.matchAll(/^hand [0-9]+ ev ([0-9.]+)/gm)].map((it) => it[1]), rest = records.slice(start + 1), end = rest.findIndex((it) => it[0] === 'street');
            const wanted = rest.slice(0, end < 0 ? undefined : end).filter((it) => it[0] === 'pot' && it[1] === '0' && it[2] === 'ev').map((it) => it[3]);
            expect(told.includes(`runouts ${records[start][3]}`) && evs.join() === wanted.join(), `street ${street} of ${number} as a spot: ${line}: ${evs} and ${wanted}`);
        }
    }
};

/** Everybody's hands, for a desk: the pot and who is to settle. */
export const everybody = async (tab) => {
    await tab.choose('player', '*');
    await tab.view('hands');
    await tab.run(`(document.querySelector('#which input[value="owed"]').click(), page.store.drawn())`);
    const text = await tab.run(`[...document.querySelectorAll('#list tr[data-at]')].map((it) => it.textContent).join('|')`);
    expect(text.includes('sam +325, tess \u2212325'), `who is to settle: ${text}`);
    await tab.run(`page.store.set({ player: '', which: 'all' })`);
};

export const views = async (tab, engine, session) => {
    await list(tab);
    await everybody(tab);
    await tab.give([join(examples, 'streets.txt'), join(examples, 'mixed.txt')]);
    await stories(tab);
    await tab.open('7411');
    if (engine !== 'webkit') await tab.shoot(`${engine}-story.png`);
    await tab.view('spots');
};
