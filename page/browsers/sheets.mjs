// node sheets.mjs PAGE.html EQUITY EXAMPLES : printed sheets, read back, in Chromium and Firefox; see page/test
// A sheet prints whole: scrolled and not, in the dark scheme, and with 200 lines of chat.

import { readFileSync } from 'node:fs';
import { join } from 'node:path';
import * as chromium from '../drive/chromium.mjs';
import * as firefox from '../drive/firefox.mjs';
import { examples, expect, inFolder, pagesOf, runAll, tabOf } from './tab.mjs';
import * as rows from './rows.mjs';

const session = readFileSync(join(examples, 'session.txt'), 'utf8');
const files = [join(examples, 'streets.txt'), join(examples, 'dispute.txt'), join(examples, 'twice.txt'),
    ...inFolder({ 'chat.txt': rows.chat(session) }, 'chat')];
const NUMBERS = ['7411', '7203', '7600001001'], LEAST_TEXT = 20;
const bare = (text) => text.replace(/\s+/g, '');

/** What a sheet on paper has to have. */
const checkPages = (pages, number, where) => {
    const whole = pages.join('\n');
    expect(whole.includes(`Hand ${number}`), `${where}: the title is there`);
    expect(whole.includes('Date of this sheet') && whole.includes('To check it'), `${where}: the last line is there`);
    expect(/SHA-256ofthefile:[0-9a-f]{64}/.test(bare(whole)), `${where}: the checksum is there`);
    expect(pages.every((it) => it.trim().length > LEAST_TEXT), `${where}: no page is empty`);
    const lacking = rows.linesOfHand(files, number).filter((line) => !bare(whole).includes(bare(line)));
    expect(lacking.length === 0, `${where}: the text is whole: ${lacking[0]}`);
};

/** Prints sheets by a driver: `print` returns a PDF. */
const sheets = async (name, tab, print) => {
    await tab.fresh();
    await tab.give(files);
    for (const number of NUMBERS) for (const top of [0, 1e6]) {
        await tab.open(number);
        await tab.run(`(scrollTo(0, ${top}), 0)`);
        const where = `${name}-sheet-${number}${top ? '-scrolled' : ''}`, pages = pagesOf(await print(), where);
        if (pages) checkPages(pages, number, where);
        await tab.close();
    }
    await tab.open('7600000001');
    const twice = await tab.text('sheet');
    expect(twice.includes('Nothing needs to be settled.') && !twice.includes('to give back'), `${name}: a unit needs no settling`);
    await tab.close();
    await tab.open('7202');
    const said = await tab.text('body');
    expect(said.includes('sam is to get 325.') && said.includes('tess is to give back 325.'), `${name}: who is to get what`);
    expect(said.includes('hand 7202 rejected line 44 Split') && said.includes('Found at the end of the hand, line 44.'),
        `${name}: the report has the lines of the file`);
    expect(/44 \(a blank line, the last of the hand\)/.test(said) && !/45 \(/.test(said), `${name}: the line that departs is shown`);
    await tab.shoot(`${name}-hand.png`);
    await tab.close();
    // with no open hand, the figures, the graph, and the sums
    await tab.view('overview');
    const pages = pagesOf(await print(), `${name}-page`), whole = pages ? pages.join('\n') : '';
    if (pages) {
        expect(whole.includes('Won') && whole.includes('Sums'), `${name}: the page prints figures and sums`);
        expect(!whole.includes('Keep as') && !whole.includes('Drop hand histories'), `${name}: and nothing else`);
        expect(pages.every((it) => it.trim().length > LEAST_TEXT), `${name}: no page of it is empty`);
    }
};

await runAll('sheets', async () => {
    const chrome = await chromium.open({ flags: ['--window-size=1100,900'] }), tab = tabOf(chrome);
    try {
        const print = async () => Buffer.from((await chrome.send('Page.printToPDF', { printBackground: true })).data, 'base64');
        for (const scheme of ['light', 'dark']) {
            await chrome.send('Emulation.setEmulatedMedia', { features: [{ name: 'prefers-color-scheme', value: scheme }] });
            await sheets(`chromium-${scheme}`, tab, print);
            await tab.open('7203');
            const features = [{ name: 'prefers-color-scheme', value: scheme }];
            await chrome.send('Emulation.setEmulatedMedia', { media: 'print', features });
            const colors = await tab.run(rows.COLORS);
            expect(colors.length === 0, `the sheet has no color: ${colors.join(', ')}`);
            await chrome.send('Emulation.setEmulatedMedia', { media: '', features: [] });
        }
    } finally {
        await chrome.close();
    }
    if (process.argv[5] !== 'firefox') return;
    const fox = await firefox.open({});
    try {
        const print = async () => Buffer.from((await fox.send('WebDriver:Print', { background: true })).value, 'base64');
        await sheets('firefox', tabOf(fox), print);
    } finally {
        await fox.close();
    }
});
