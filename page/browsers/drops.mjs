// node drops.mjs PAGE.html EQUITY EXAMPLES : files that are dropped by real events, in Chromium; see page/test

import { readFileSync, writeFileSync } from 'node:fs';
import { join } from 'node:path';
import { open } from '../drive/chromium.mjs';
import { examples, expect, inFolder, own, runAll, tabOf, work } from './tab.mjs';
import * as rows from './rows.mjs';

const session = readFileSync(join(examples, 'session.txt'), 'utf8');
const month = inFolder(rows.month(session), 'month'), hostile = inFolder(rows.hostile(session), 'hostile');

/** Hands are in order of time: any order of the files gives one graph, and x rises. */
const order = async (tab, drop) => {
    const graphs = [];
    for (const files of [month, [...month].reverse(), rows.shuffled(month)]) {
        await tab.fresh();
        await drop(files);
        await tab.choose('player', 'kim');
        graphs.push([await tab.series('hand'), await tab.series('day'), await tab.series('session')]);
    }
    const rises = (points) => points.length > 2 && points.every((it, at) => at === 0 || it[0] > points[at - 1][0]);
    expect(graphs[0].every(rises), 'x rises by hand, day, and session');
    expect(graphs.every((it) => JSON.stringify(it) === JSON.stringify(graphs[0])), 'shuffled copies of a month give one graph');
    const results = (it) => own(it, 'results', '--format', 'csv').stdout.toString();
    const expected = rows.monthSums(month.map((it) => readFileSync(it, 'utf8')), results, 'kim');
    expect(JSON.stringify(graphs[0][0].map((it) => it[1])) === JSON.stringify(expected), 'the graph sums up hands as the clock has them');
    for (const by of ['day', 'session']) {
        await tab.choose('by', by);
        await tab.shoot(`by-${by}.png`);
    }
    await tab.fresh();
    await drop(inFolder(rows.midnight(session), 'midnight'));
    const days = (await tab.series('day')).map((it) => new Date(it[0] * 864e5).toISOString().slice(5, 10));
    expect(days.join() === '11-02,11-03', `two tables past midnight are two days: ${days}`);
    expect((await tab.series('session')).length === 1, 'two tables of an evening are one session');
};

/** Files without a hand are named, a second drop is queued, the example is kept apart, and Clear forgets all. */
const files = async (tab, drop, begin) => {
    const { run } = tab;
    await tab.fresh();
    await drop(inFolder(rows.mixed(session), 'mixed'));
    await tab.view('files');
    const missed = await run('[...document.querySelectorAll("#missed-files tbody tr")].map((it) => it.textContent)');
    const named = ['gg.txt', 'wide.txt', 'some.zip'].every((name) => missed.some((it) => it.startsWith(name)));
    expect(missed.length === 3 && named, `three files are named: ${missed.join(' | ')}`);
    await tab.shoot('mixed.png');
    await begin(month);
    await begin([join(examples, 'session.txt')]);
    await tab.idle();
    expect(await tab.count() === 4 + 4 * month.length, `two drops at once give both: ${await tab.text('heads')}`);

    await tab.fresh();
    await run('page.takeExample().then(() => 0)');
    expect(await tab.count() > 5 && !await run('document.getElementById("is-example").hidden'), 'the example is shown, and says so');
    await drop(month);
    expect(await tab.count() === 4 * month.length && await run('document.getElementById("is-example").hidden'),
        'own files are without the example');
    await run('page.takeExample().then(() => 0)');
    await run('(document.getElementById("back").click(), page.store.drawn())');
    expect(await tab.count() === 4 * month.length, 'own hands come back after the example');
    await run('(document.getElementById("clear-all").click(), page.store.drawn())');
    expect(await tab.count() === 0 && await run('page.views.view') === 'home', 'Clear forgets all hands');

    const cashed = { 'cash-out.txt': rows.cashedOut(session), 'more.txt': rows.renumbered(session, '73', '74') };
    await drop(inFolder(cashed, 'left'));
    await tab.choose('player', 'max');
    const left = await tab.text('left-text');
    expect(left === 'Without 1 rejected hand of max: 1 cashed out.', `left out: ${left}`);
    await run('(document.getElementById("left").click(), page.store.drawn())');
    const listed = await run('document.querySelectorAll("#list tbody tr[data-at]").length');
    expect(listed === 1 && (await tab.text('list')).includes('cashed out'), 'a click shows the hand that is left out');
    await tab.shoot('left-out.png');
};

/** Hostile texts, a file that is cut off, a stop, and a file that changed. */
const odd = async (tab, drop, begin) => {
    const { run } = tab;
    await tab.fresh();
    await drop(hostile);
    expect(await tab.count() > 8, 'hands of hostile, cut and carriage-return texts are shown');
    for (let at = 0; at < 3; at++) {
        await run(`page.open(${at})`);
        await tab.close();
    }
    expect(await run('globalThis.hurt === undefined && document.querySelectorAll("img").length === 0'), 'a name is no HTML');

    const long = join(work, 'long.txt'), renumber = (at) => rows.renumbered(session, '7300000', `73${String(at).padStart(5, '0')}`);
    writeFileSync(long, Array.from({ length: 6000 }, (_, at) => renumber(at)).join('\n'));
    await tab.fresh();
    await begin([long]);
    await run('new Promise((done) => { const look = () => page.isReading() ? done(0) : setTimeout(look, 5); look(); })');
    await run('(page.stop(), 0)');
    await tab.idle();
    expect((await tab.text('note')).startsWith('Stopped'), `a stop is told: ${await tab.text('note')}`);
    await drop([join(examples, 'session.txt')]);
    expect(await tab.count() >= 4, 'after a stop another file is read');

    const [changing] = inFolder({ 'changing.txt': rows.renumbered(session, '73', '75') }, 'changing');
    await drop([changing]);
    writeFileSync(changing, `more\n${rows.renumbered(session, '73', '76')}`);
    await run(`page.open([...page.choose().order].find((it) => page.choose().hands.numbers[it] === '7500000002'))`);
    expect(/changed since it was read/.test(await tab.text('note')), `a file that changed is told: ${await tab.text('note')}`);
};

await runAll('drops', async () => {
    const driver = await open({ flags: ['--window-size=1100,1500'] }), tab = tabOf(driver), requests = [], complaints = [];
    driver.on(({ method, params }) => {
        if (method === 'Network.requestWillBeSent') requests.push(params.request.url);
        if (method === 'Log.entryAdded') complaints.push(params.entry.text);
        if (method === 'Runtime.exceptionThrown') complaints.push(params.exceptionDetails.exception?.description || params.exceptionDetails.text);
    });
    const begin = async (paths) => {
        const at = await tab.run(`(() => {
            const it = document.getElementById('drop').getBoundingClientRect();
            return { x: it.x + it.width / 2, y: it.y + 12 };
        })()`);
        const data = { items: [], files: paths, dragOperationsMask: 1 };
        for (const type of ['dragEnter', 'dragOver', 'drop']) await driver.send('Input.dispatchDragEvent', { type, ...at, data });
    };
    const drop = async (paths) => {
        await begin(paths);
        await tab.idle();
    };
    try {
        for (const it of ['Network', 'Log', 'Runtime']) await driver.send(`${it}.enable`);
        await order(tab, drop);
        await files(tab, drop, begin);
        await odd(tab, drop, begin);
        const sent = requests.filter((it) => !/^(file|blob|data):/.test(it));
        expect(sent.length === 0, `nothing is sent: ${sent.join(' ')}`);
        const refused = await tab.run('fetch("http://127.0.0.1:9/").then(() => "sent", () => "refused")');
        expect(refused === 'refused', 'the page itself refuses a request');
        const others = complaints.filter((it) => !it.includes('127.0.0.1:9'));
        expect(others.length === 0, `no complaint: ${others.join(' | ')}`);
    } finally {
        await driver.close();
    }
});
