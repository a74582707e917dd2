// node looks.mjs PAGE.html EQUITY EXAMPLES : the look of each view in Chromium, at two widths and in both schemes; see page/test
// Contrast of all text is at least 4.5, each control has a name, nothing is too wide, and the keyboard reaches everything with a visible ring.

import { readFileSync } from 'node:fs';
import { join } from 'node:path';
import { open } from '../drive/chromium.mjs';
import { examples, expect, inFolder, runAll, tabOf } from './tab.mjs';
import * as rows from './rows.mjs';

const LEAST = 4.5;

/** An expression for the texts of the page that are too pale, with their contrast. */
const PALE = `(() => {
    const parse = (text) => { const it = (text.match(/[0-9.]+/g) || [0, 0, 0, 0]).map(Number); return it.length < 4 ? [...it.slice(0, 3), 1] : it; };
    const over = ([r, g, b, a], [R, G, B]) => [r * a + R * (1 - a), g * a + G * (1 - a), b * a + B * (1 - a)];
    const light = (color) => color.map((it) => it / 255).map((it) => it <= .03928 ? it / 12.92 : ((it + .055) / 1.055) ** 2.4).reduce((sum, it, at) => sum + it * [.2126, .7152, .0722][at], 0);
    const ground = (it) => { const all = []; for (let at = it; at; at = at.parentElement) { const color = parse(getComputedStyle(at).backgroundColor); if (color[3]) { all.push(color); if (color[3] === 1) break; } }
        return all.reverse().reduce((below, color) => over(color, below), [255, 255, 255]); };
    const found = [], walk = document.createTreeWalker(document.body, NodeFilter.SHOW_TEXT); let count = 0;
    for (let text; (text = walk.nextNode());) {
        const it = text.parentElement;
        if (!text.data.trim() || it.closest('script, noscript, option, .vh') || !it.getClientRects().length) continue;
        const style = getComputedStyle(it), below = ground(it), color = over(parse(it.closest('svg') ? style.fill : style.color), below);
        let opacity = 1; for (let at = it; at; at = at.parentElement) opacity *= Number(getComputedStyle(at).opacity);
        if (style.visibility === 'hidden' || opacity === 0) continue;
        const [a, b] = [light(over([...color, opacity], below)), light(below)].sort((x, y) => y - x), contrast = (a + .05) / (b + .05);
        count++;
        if (contrast < ${LEAST}) found.push(it.tagName + '.' + it.className + ' ' + contrast.toFixed(2) + ' ' + text.data.trim().slice(0, 30));
    }
    return { count, found: [...new Set(found)] };
})()`;

/** An expression for the controls without a name. */
const NAMELESS = `[...document.querySelectorAll('button, input, select, a, [tabindex="0"]')].filter((it) => it.getClientRects().length && !(it.getAttribute('aria-label') || it.textContent.trim()
    || it.labels && [...it.labels].some((label) => label.textContent.trim()) || it.id && document.querySelector('label[for="' + it.id + '"]') || it.tagName === 'TR')).map((it) => it.outerHTML.slice(0, 90))`;

/** An expression for what has the focus: a name for it, and whether a ring is seen on it or around it. */
const FOCUSED = `(() => {
    const it = document.activeElement, box = it.getBoundingClientRect(), hasRing = (one) => one && getComputedStyle(one).outlineStyle !== 'none' && parseFloat(getComputedStyle(one).outlineWidth) >= 2;
    return it === document.body ? null : { name: it.tagName + '#' + it.id + '.' + String(it.className) + ' ' + (it.getAttribute('aria-label') || it.textContent).trim().slice(0, 24),
        ring: hasRing(it) || hasRing(it.closest('label')) || hasRing(it.nextElementSibling) || hasRing(it.closest('.pick')), seen: box.width > 0 && box.bottom > 0 && box.top < innerHeight };
})()`;

/** Walks through a view by the tabulator, and returns how many stops there are. */
const walk = async (driver, tab, where) => {
    await tab.run('(document.querySelector(".brand").focus(), scrollTo(0, 0), 0)');
    let stops = 0;
    for (; stops < 150; stops++) {
        for (const type of ['keyDown', 'keyUp']) await driver.send('Input.dispatchKeyEvent', { type, key: 'Tab', code: 'Tab', windowsVirtualKeyCode: 9 });
        const it = await tab.run(FOCUSED);
        if (!it) break;
        expect(it.ring && it.seen, `${where}: a ring is seen on ${it.name}`);
    }
    return stops;
};

await runAll('looks', async () => {
    const driver = await open({ flags: ['--window-size=1280,900'] }), tab = tabOf(driver), session = readFileSync(join(examples, 'session.txt'), 'utf8');
    const files = [...inFolder(rows.month(session), 'month'), ...inFolder(rows.mixed(session), 'mixed'), ...inFolder({ 'cashed.txt': rows.renumbered(rows.cashedOut(session), '73', '74') }, 'left'),
        ...['dispute', 'mixed', 'streets', 'twice', 'tournament'].map((it) => join(examples, `${it}.txt`))];
    const states = [['home', () => tab.run('page.picture')], ['overview', () => tab.choose('by', 'hand')], ['overview-session', async () => { await tab.view('overview'); await tab.choose('by', 'session'); }],
        ['hands', () => tab.run('page.store.set({ which: "all" })')], ['everybody', async () => { await tab.view('hands'); await tab.choose('player', '*'); }],
        ['hand', async () => { await tab.run('page.store.set({ player: "" })'); await tab.open('7411'); }], ['stud', () => tab.open('7500000002')], ['rejected', () => tab.open('7202')],
        ['sheet', () => tab.view('sheet')], ['spots', () => tab.run('(document.getElementById("spot").value = "holdem As Ah - Ks Kh -- 2c 7d 9h 4s", page.answer())')], ['files', () => 0]];
    try {
        await driver.send('Emulation.setFocusEmulationEnabled', { enabled: true });
        for (const [width, height, mobile] of [[1280, 900, false], [360, 740, true]]) for (const scheme of ['light', 'dark']) {
            await driver.send('Emulation.setEmulatedMedia', { features: [{ name: 'prefers-color-scheme', value: scheme }, { name: 'prefers-reduced-motion', value: 'reduce' }] });
            await driver.send('Emulation.setDeviceMetricsOverride', { width, height, deviceScaleFactor: 1, mobile });
            await tab.fresh();
            for (const [state, begin] of states) {
                if (state === 'overview') await tab.give(files);
                if (['overview', 'hands', 'spots', 'files'].includes(state)) await tab.view(state);
                await begin();
                await tab.run('page.store.drawn().then(() => new Promise((done) => setTimeout(() => done(0), 400)))');
                const where = `${state}-${width}-${scheme}`, { count, found } = await tab.run(PALE), nameless = await tab.run(NAMELESS);
                expect(count > 10 && found.length === 0, `${where}: the contrast of all ${count} texts: ${found.slice(0, 6).join(' | ')}`);
                expect(nameless.length === 0, `${where}: each control has a name: ${nameless.slice(0, 4).join(' | ')}`);
                expect(await tab.run(`document.documentElement.scrollWidth <= ${width}`), `${where}: nothing is wider than ${width} pixels`);
                if (scheme === 'light' && mobile === false) expect(await walk(driver, tab, where) > 2, `${where}: the keyboard reaches the view`);
                await tab.run('(document.activeElement.blur(), scrollTo(0, 0), 0)');
                await tab.shoot(`${where}.png`);
            }
        }
    } finally {
        await driver.close();
    }
});
