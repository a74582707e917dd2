// node figures.mjs PAGE.html EQUITY EXAMPLES : sums, tables, and reports of the page beside native runs, in Chromium; see page/test

import { existsSync, readFileSync, readdirSync, writeFileSync } from 'node:fs';
import { join } from 'node:path';
import { open } from '../drive/chromium.mjs';
import { examples, expect, own, runAll, tabOf, work } from './tab.mjs';
import * as rows from './rows.mjs';

const NAMES = ['all-in', 'cash', 'dispute', 'mixed', 'month', 'session', 'tournament', 'twice', 'streets'];
const histories = NAMES.map((it) => join(examples, `${it}.txt`));
const once = rows.onceOf(histories.map((it) => readFileSync(it, 'utf8')).join(''));
const handOf = (number) => once.find((it) => new RegExp(`#${number}\\b`).test(it));
const recordsOf = (text, ...words) => own(text, ...words, '--format', 'csv').stdout.toString().trim().split('\n').map((it) => it.split(','));

/** The page's sums of each name against one run of `balance`. */
const balances = async ({ run }, balance) => {
    for (const row of balance) {
        const there = await run(rows.sumsOf(row[12], row[1] === 'hundredths'));
        expect(there === [row[3], row[5], row[7], row[9], row[11]].join(' '), `the sums of ${row[12]}: ${there} and ${row.join(' ')}`);
    }
    expect(balance.length > 10, 'there are names');
};

/** With a showdown and without: by the summaries, where the page goes by what the players did. */
const showdowns = async ({ run }) => {
    for (const name of ['kim', 'lou', 'max', 'zoe', 'sam']) {
        const [all, shown] = await run(`(() => {
            const { hands, order } = page.choose(), name = ${JSON.stringify(name)};
            const played = page.unitsOf(hands, order, name).flatMap((unit) => page.playedBy(hands, order, name, unit));
            return [played.map(({ hand, row }) => [hands.numbers[hand], String(hands.columns.net[row])]),
                String(page.sumOf(hands, played).shown)];
        })()`);
        const isFolded = new RegExp(`^Seat [0-9]+: ${name}( \\([a-z ]*\\))* folded`, 'm');
        const sum = all.filter(([number]) => /SHOW DOWN/.test(handOf(number)) && !isFolded.test(handOf(number)))
            .reduce((before, [, net]) => before + BigInt(net), 0n);
        expect(shown === String(sum), `what ${name} won with a showdown: ${shown} and ${sum}`);
    }
};

/** The all-ins with most luck have the program's figures of their pots. */
const luck = async ({ run }, player) => {
    await run(`new Promise((done) => {
        const look = () => [...document.querySelectorAll('#luck tbody tr')].every((it) => it.children[3].textContent !== '…') ? done(0) : setTimeout(look, 20);
        look();
    })`);
    const listed = await run(`[...document.querySelectorAll('#luck tbody tr')].map((it) => [it.querySelector('button').title.slice(5), ...[...it.children].map((cell) => cell.textContent)])`);
    expect(listed.length > 0, 'there are all-ins');
    for (const [number, , , street, parts, won] of listed) {
        const records = recordsOf(handOf(number), 'audit'), theirs = records.filter((it) => it[2] === 'ev' && it[12] === player);
        const there = [records.find((it) => it[0] === 'all-in')[1], theirs.map((it) => `${(Number(it[3]) * 100).toFixed(1)}%`).join(' · ')];
        expect([street, parts].join(' ') === there.join(' '), `the all-in of ${number}: ${street} ${parts}, and ${there}`);
        const [row] = recordsOf(handOf(number), 'results').filter((it) => it[0] === 'result' && it[12] === player);
        expect(won.replace('\u2212', '-').replace(/[+,]/g, '') === row[8], `what was won in ${number}: ${won} and ${row[8]}`);
        const kept = await run(`(() => { const { hands } = page.choose(), at = hands.numbers.indexOf(${JSON.stringify(number)}); return hands.texts[hands.columns.street[at]]; })()`);
        expect(kept === street, `the street of ${number} in the filters: ${kept}`);
    }
};

/** A table for a spreadsheet, read back, has the same sums. */
const tables = async ({ run }, player, balance) => {
    for (const [id, name] of [['keep-table', 'results-table.csv'], ['keep-sums', `sums-${player}-month.csv`]]) {
        await run(`document.getElementById('${id}').click()`);
        const path = join(work, name);
        for (let tries = 0; tries < 100 && !existsSync(path); tries++) await new Promise((done) => { setTimeout(done, 100); });
        await new Promise((done) => { setTimeout(done, 200); });
        expect(existsSync(path) && readFileSync(path).subarray(0, 3).toString('hex') === 'efbbbf', `${name} is kept, with a mark`);
    }
    const book = rows.table(readFileSync(join(work, 'results-table.csv'), 'utf8'));
    for (const row of balance) {
        const isMoney = row[1] === 'hundredths', of = isMoney ? 100 : 1;
        const mine = book.filter((it) => it.name === row[12] && it.unit.startsWith('money') === isMoney);
        const total = (key) => mine.reduce((sum, it) => sum + Math.round(Number(it[key] || it.net) * of), 0) / of;
        expect(mine.length === Number(row[3]) && total('net') === Number(row[7]) && total('adjusted') === Number(row[9]),
            `the table's sums of ${row[12]}`);
    }
};

/** Each option of each filter leaves as many hands as it says. */
const filters = async ({ run }) => {
    const wrong = await run(`(async () => {
        const wrong = [], bar = document.getElementById('picks');
        for (const { name } of [...bar.querySelectorAll('select')]) {
            const find = () => bar.querySelector('select[name="' + name + '"]');
            for (const { value, text } of [...find().options].slice(1).filter((it) => it.value !== 'span' && !it.disabled)) {
                find().value = value;
                find().onchange();
                await page.store.drawn();
                if (!text.replace(/,/g, '').endsWith('(' + page.choose().entries.length + ')')) wrong.push(name + ': ' + text);
            }
            find().value = '';
            find().onchange();
            await page.store.drawn();
        }
        return wrong.length ? wrong : bar.querySelectorAll('select').length;
    })()`);
    expect(wrong > 1, `options leave what they say: ${wrong}`);
};

/** Next and Back go through the list, and after a reload nothing is left of an opened hand. */
const trail = async (driver, tab) => {
    const { run } = tab, isAt = (place) => tab.until(`document.getElementById('place').textContent.startsWith('${place} of ')`);
    await tab.view('hands');
    await run('page.open(page.choose().listed[0].hand)');
    await run('document.getElementById("after").click()');
    expect(await isAt(2), 'Next opens the next hand');
    await run('(history.back(), 0)');
    expect(await isAt(1), 'Back opens the one before');
    await run('(globalThis.isOld = true, 0)');
    await driver.send('Page.reload');
    const isFirst = 'globalThis.isOld === undefined && globalThis.page && location.hash === "" && page.views.view === "home" && !document.getElementById("view-home").hidden';
    expect(await tab.until(isFirst), 'after a reload the page shows first sight');
};

/** The graph is kept as a picture that stands alone, with the same colors. */
const picture = async (tab, player) => {
    await tab.view('overview');
    await tab.run(`document.getElementById('keep-graph').click()`);
    const found = () => readdirSync(work).find((it) => it.startsWith(`winnings-${player}`) && it.endsWith('.svg'));
    for (let tries = 0; tries < 100 && !found(); tries++) await new Promise((done) => { setTimeout(done, 100); });
    await new Promise((done) => { setTimeout(done, 200); });
    const svg = readFileSync(join(work, found() || ''), 'utf8'), count = await tab.run('document.querySelectorAll("#graph path[class^=line]").length');
    expect(svg.includes('xmlns="http://www.w3.org/2000/svg"') && !/var\(--|class="mark"/.test(svg), 'the graph is a picture that stands alone');
    expect(count === 4 && (svg.match(/<path class="line/g) || []).length === count && /stroke="rgb\(/.test(svg), `the picture has ${count} lines, with colors`);
    expect(svg.includes('Non-showdown winnings') && svg.includes('clip-path="url(#luck'), 'the picture has names and the band of luck');
    if (process.env.SHOTS) writeFileSync(join(process.env.SHOTS, 'graph.svg'), svg);
};

await runAll('figures', async () => {
    const driver = await open({ flags: ['--window-size=1100,1500'] }), tab = tabOf(driver), { run } = tab;
    try {
        await driver.send('Browser.setDownloadBehavior', { behavior: 'allow', downloadPath: work });
        await tab.fresh();
        await run('page.picture');
        await tab.shoot('empty.png');
        await tab.give(histories);
        expect(await run('page.views.view') === 'overview', 'the figures are shown');
        const kept = await run(`page.keep('audit', 'text').then((parts) => btoa(parts.map((it) => Array.from(it, (byte) => String.fromCharCode(byte)).join('')).join('')))`);
        const there = Buffer.concat(histories.map((it) => own(readFileSync(it), 'audit').stdout));
        expect(Buffer.from(kept, 'base64').equals(there), 'the report that is kept is that of the native program');
        const balance = recordsOf(once.join(''), 'balance').slice(1), player = await run('document.getElementById("player").value');
        await balances(tab, balance);
        await showdowns(tab);
        await luck(tab, player);
        await tables(tab, player, balance);
        await filters(tab);
        await picture(tab, player);
        await tab.shoot('dropped.png');
        for (const scheme of ['light', 'dark']) {
            await driver.send('Emulation.setEmulatedMedia', { features: [{ name: 'prefers-color-scheme', value: scheme }] });
            await driver.send('Emulation.setDeviceMetricsOverride', { width: 360, height: 1400, deviceScaleFactor: 1, mobile: true });
            await tab.shoot(`narrow-${scheme}.png`);
            expect(await run('document.documentElement.scrollWidth <= 361'), 'nothing is wider than 360 pixels');
        }
        await trail(driver, tab);
    } finally {
        await driver.close();
    }
});
