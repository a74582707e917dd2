// node spots.mjs PAGE.html EQUITY EXAMPLES : spots and ranges as they are typed, counted in parts, and chosen from the grid, in Chromium;
// see page/test

import { open } from '../drive/chromium.mjs';
import { readAnswers, writtenAnswer } from '../src/answers.mjs';
import { addPart, checkSum, noAnswer, planOf } from '../src/wide.mjs';
import { LINES } from '../unit/typed.table.mjs';
import { listed } from './listed.mjs';
import { expect, own, runAll, tabOf } from './tab.mjs';

const KEYS = { ArrowRight: 39, ArrowUp: 38, ArrowDown: 40, Enter: 13, 2: 50, 0: 48 };
const ANY = '22+,A2+,K2+,Q2+,J2+,T2+,92+,82+,72+,62+,52+,42+,32';
const wait = (time) => new Promise((done) => { setTimeout(done, time); });

/** What is typed is read by the program, and its report is below the answer. */
const typing = async (tab) => {
    const { run } = tab;
    const answered = (line, mode) => tab.report().then((it) => it === own(`${line}\n`, mode).stdout.toString());
    const text = (selector) => run(`[...document.querySelectorAll('#answer ${selector}')].map((it) => it.textContent).join('|')`);
    const type = (line) => run(`(() => {
        const it = document.getElementById('spot');
        it.value = ${JSON.stringify(line)};
        it.oninput();
        return document.getElementById('answer').textContent;
    })()`);
    for (const [line, mode] of [['holdem As Ah - Ks Kh -- 2c 7d 9h 4s', 'spots'], ['holdem TT+ - AsAh -- 2c 7d 9h', 'ranges']]) {
        await tab.ask(line);
        expect(await answered(line, mode), `the answer to ${line}`);
        expect(await text('.spotasked code') === line, `the line that was asked: ${line}`);
    }
    await tab.ask('a♠10h VS 99-77 on 2c,7d,9h');
    expect(await text('.understood') === 'Hold’em A♠︎10♥︎ vs 99, 88, 77 on 2♣︎7♦︎9♥︎', `what was understood: ${await text('.understood')}`);
    expect(await answered('holdem AsTh - 99,88,77 -- 2c 7d 9h', 'ranges'), 'the answer to a line as people type it');
    const said = own('holdem AsTh - 99,88,77 -- 2c 7d 9h\n', 'ranges').stdout.toString(), percent = / ev 0?(\S+)/.exec(said);
    expect(Math.abs(Number.parseFloat(await text('.spotshare > span')) / 100 - Number(percent[1])) < 0.001, 'the percentage is that of the report');
    expect((await text('.spotcounts')).includes(`wins ${Number(/ win (\d+)/.exec(said)[1]).toLocaleString('en-US')}`), 'the counts are those of the report');
    expect(await text('.spotbar i') === '|||', 'there is a bar for each player');
    await type('AsAx vs KsKh');
    expect(await text('.spotfault mark') === 'AsAx' && await tab.report() === '', `the wrong word is named: ${await text('.spotfault')}`);
    await tab.ask('AsAh vs AsKs vs QQ');
    expect((await text('.spotfault')).includes('There is no choice of hands'), 'a refusal of the program is a sentence');
    for (const mode of ['spots', 'ranges']) {
        const lines = LINES.filter((it) => it[1] === mode).map((it) => it[2]), report = own(`${lines.join('\n')}\n`, mode).stdout.toString();
        expect(!report.includes('rejected'), `the program accepts every line of the table of ${mode}: ${report.match(/.*rejected.*/)}`);
    }
    // no answer under another line
    expect((await type('holdem As Ah - Ks Kh')).endsWith('counting …'), 'a new line clears the old answer');
    const slow = run('page.answer()'), second = 'holdem 2s 2h - Ks Kh -- 2c 7d 9h';
    expect((await type(second)).endsWith('counting …'), 'a second line does too');
    await slow;
    expect(await tab.until(`document.querySelector('#answer pre')`), 'the second line is answered');
    expect(await answered(second, 'spots'), 'the late answer of the line before is dropped');
    expect((await type('')).startsWith('For example:'), 'no line has examples');
};

/** Ranges above the limit are counted in parts. */
const inParts = async (tab) => {
    const { run } = tab, all = listed();
    expect(all.length > 20, `there are ${all.length} listed lines`);
    for (const { line, report } of all) {
        const begun = Date.now();
        await tab.ask(line);
        const said = await tab.report();
        expect(said === report, `${line} in parts: ${said}`);
        if (Date.now() - begun > 5000) console.log(`page/test: ${line}: ${((Date.now() - begun) / 1000).toFixed(1)} s`);
    }
    // the same sums where the program answers the whole line, with a limit of the test
    for (const [sides, board, dead] of [[['AA', 'KK'], [], []], [['QQ', 'AKs'], [], []], [['AA:3,KsKh', 'AK', 'QQ:2'], ['2c', '7d', '9h'], []],
        [['TT+,AK:7', '99,AQs+'], ['Kd', '8s', '5c', '2c'], ['Ah']], [['AK', 'AK', 'AK'], ['Qd', 'Js', 'Tc'], []]]) {
        const rest = `${board.length ? ` -- ${board.join(' ')}` : ''}${dead.length ? ` / ${dead.join(' ')}` : ''}`;
        const plan = planOf({ sides, board, dead }, 1, 16 * planOf({ sides, board, dead }, 1).runouts), sum = noAnswer(plan);
        const lines = Array.from(plan.parts(), ({ line }) => `${line}\n`).join('');
        for (const it of readAnswers(own(lines, 'ranges').stdout.toString())) addPart(sum, it);
        checkSum(sum, plan);
        expect(plan.count > 1 && writtenAnswer(sum) === own(`holdem ${sides.join(' - ')}${rest}\n`, 'ranges').stdout.toString(), `parts of ${sides.join(' - ')}${rest}`);
    }
    await tab.ask('AA - KK - QQ,JJ - TT');
    expect((await tab.text('answer')).includes('how many players share a tie'), 'four ranges above the limit have a reason');
    // a count that takes long begins with a click, and can be stopped
    await run(`(document.getElementById('spot').value = 'random vs random', page.answer(), 0)`);
    const button = (name) => `[...document.querySelectorAll('#answer button')].find((it) => it.textContent === '${name}')`;
    expect(await tab.until(button('Count')), 'a long count begins with a click');
    expect(/1,624,350 choices of hands .*About \d+ (minutes|hours)/.test(await tab.text('answer')), `and says how long it takes: ${await tab.text('answer')}`);
    await run(`(${button('Count')}.click(), 0)`);
    expect(await tab.until(`/[0-9]%/.test(document.getElementById('answer').textContent)`), 'it says how far it is');
    await tab.shoot('parts.png');
    await run(`(${button('Stop')}.click(), 0)`);
    expect(await tab.until(`document.getElementById('answer').textContent.endsWith('Stopped.')`), 'it is stopped');
};

/** Ranges are chosen from the grid by clicks, by drag, by keys, and with weights, and its cells have equities. */
const grid = async (tab, driver) => {
    const { run } = tab, value = () => run('document.getElementById("spot").value');
    const cell = (name) => `document.querySelector('#grid button[data-name="${name}"]')`;
    await run(`(document.getElementById('choose').open = true, 0)`);
    await tab.ask('holdem - AsAh -- 2c 7d 9h');
    for (const name of ['TT', 'JJ', 'QQ', 'KK', 'AA', 'AKs', 'AQs', '72o', '72o']) await run(`${cell(name)}.click()`);
    await run(`${cell('72o')}.focus()`);
    const press = async (key, modifiers = 0) => {
        for (const type of ['keyDown', 'keyUp']) {
            const text = key === 'Enter' && type === 'keyDown' ? { text: '\r' } : {};
            await driver.send('Input.dispatchKeyEvent', { type, key, code: key, windowsVirtualKeyCode: KEYS[key], modifiers, ...text });
        }
    };
    for (const key of ['ArrowRight', 'ArrowUp', 'Enter']) await press(key);
    expect(await value() === 'holdem TT+,AQs+,63o - AsAh -- 2c 7d 9h', `the line of the grid: ${await value()}`);
    expect(await tab.text('chosen') === '50 of 1,326 hands, 3.8%', 'the grid counts the hands');
    await tab.ask(await value());
    expect(await tab.report() === own(`${await value()}\n`, 'ranges').stdout.toString(), 'the answer to the line of the grid');
    await press('ArrowDown', 8);
    expect((await value()).includes('63o,62o'), `Shift and an arrow key choose on: ${await value()}`);
    await press('2');
    expect((await value()).startsWith('holdem TT+:100,AQs+:100,63o:100,62o:50 - '), `a key sets a weight: ${await value()}`);
    await press('0');
    expect((await value()).startsWith('holdem TT+,AQs+,63o - '), `and removes the cell: ${await value()}`);
    const drag = async (names) => {
        const at = (name) => run(`(() => { const it = ${cell(name)}; it.scrollIntoView({ block: 'center' }); const { x, y, width, height } = it.getBoundingClientRect(); return { x: x + width / 2, y: y + height / 2 }; })()`);
        await at(names[0]);
        await driver.send('Input.dispatchMouseEvent', { type: 'mousePressed', button: 'left', buttons: 1, clickCount: 1, ...await at(names[0]) });
        for (const name of names.slice(1)) await driver.send('Input.dispatchMouseEvent', { type: 'mouseMoved', button: 'left', buttons: 1, ...await run(`(() => { const { x, y, width, height } = ${cell(name)}.getBoundingClientRect(); return { x: x + width / 2, y: y + height / 2 }; })()`) });
        const last = await run(`(() => { const { x, y, width, height } = ${cell(names[names.length - 1])}.getBoundingClientRect(); return { x: x + width / 2, y: y + height / 2 }; })()`);
        await driver.send('Input.dispatchMouseEvent', { type: 'mouseReleased', button: 'left', buttons: 0, clickCount: 1, ...last });
    };
    await drag(['AKo', 'AQo', 'AJo', 'KJo']);
    expect(await value() === 'holdem TT+,AQs+,AJo+,KJo,63o - AsAh -- 2c 7d 9h', `a drag chooses all cells that it passes: ${await value()}`);
    await tab.ask(await value());
    await drag(['AJo', 'KJo']);
    expect(await value() === 'holdem TT+,AQ+,63o - AsAh -- 2c 7d 9h', `a drag from a chosen cell removes them: ${await value()}`);
    await tab.ask(await value());
    await tab.shoot('grid.png');

    // equities: with a board at once, and before the flop until they are stopped
    const heat = `[...document.querySelectorAll('#choose button')].find((it) => it.textContent === 'Show equities')`;
    const stop = `[...document.querySelectorAll('#choose button')].find((it) => it.textContent === 'Stop')`;
    await run(`(document.getElementById('spot').value = 'TT+, AK vs QQ+, AK:0.5 on 2c 7d 9h', page.answer())`);
    await run(`(${heat}.click(), 0)`);
    expect(await tab.until(`${cell('22')}.querySelector('small') && ${cell('AA')}.querySelector('small') && !${stop}`), 'the equities of all cells are there');
    for (const name of ['AA', 'AKs', 'AKo', '72o', 'T9s', '99', '22']) {
        const [win, tie, total] = (() => {
            const { answer } = readAnswers(own(`holdem ${name} - QQ+:2,AK -- 2c 7d 9h\n`, 'ranges').stdout.toString())[0], [it] = answer.hands[0].sides;
            return [Number(it.win), Number(it.tie), Number(answer.total)];
        })();
        const wanted = `${(100 * (win + tie / 2) / total).toFixed(2)}%`;
        expect(await run(`${cell(name)}.title`) === `${name}: ${wanted}`, `the equity of ${name}: ${await run(`${cell(name)}.title`)}, and not ${wanted}`);
    }
    await tab.shoot('heat.png');
    // against two players
    await run(`(document.getElementById('spot').value = 'TT+ vs QQ+ vs AK on 2c 7d 9h', page.answer())`);
    expect(await tab.until(`document.getElementById('choose').textContent.includes('against QQ+ and AK.') && ${cell('AA')}.querySelector('small') && !${stop}`), 'the equities against two players are there');
    for (const name of ['99', 'AKs', '72o']) {
        const said = own(`holdem ${name} - QQ+ - AK -- 2c 7d 9h\n`, 'ranges').stdout.toString(), wanted = Number(/^hand 1 ev (\S+)/m.exec(said)[1]);
        const title = await run(`${cell(name)}.title`), part = Number.parseFloat(title.split(': ')[1]) / 100;
        expect(Math.abs(part - wanted) < 0.0006, `the equity of ${name} against two players: ${title}, and not ${wanted}`);
    }
    await run(`(document.getElementById('spot').value = 'AsKs vs TT+, AQs+, AKo', page.answer(), 0)`);
    // on a slow machine a count that takes long begins with a click
    const start = `[...document.querySelectorAll('#choose button')].find((it) => it.textContent === 'Count')`;
    expect(await tab.until(`${start} || ${stop}`), 'before the flop the equities are counted in the background');
    await run(`(${start}?.click(), 0)`);
    expect(await tab.until(`${stop} && ${cell('AA')}.querySelector('small')`), 'before the flop one cell appears after the other');
    expect(await run(`/left/.test(document.getElementById('choose').textContent)`), 'with the time that is left');
    await run(`(${stop}.click(), 0)`);
    expect(await tab.until(`!${stop} && /stopped/.test(document.getElementById('choose').textContent)`), 'it is stopped');
    await run(`(${heat}.click(), 0)`);
    await wait(100);
    expect(!await run(`document.querySelector('#grid small')`), 'and the range is back');
};

await runAll('spots', async () => {
    const driver = await open({ flags: ['--window-size=1100,1500'] }), tab = tabOf(driver);
    try {
        await tab.fresh();
        await tab.view('spots');
        await typing(tab);
        await inParts(tab);
        await grid(tab, driver);
        const globals = await tab.run('Object.keys(globalThis).filter((it) => ["page", "engine", "Dygraph", "equity"].includes(it)).join()');
        expect(globals === 'page', `the bundle has one global: ${globals}`);
    } finally {
        await driver.close();
    }
});
