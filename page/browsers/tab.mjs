// A tab with the page, and what the tests ask of it, in any of the drivers.

import { mkdirSync, mkdtempSync, readFileSync, rmSync, writeFileSync } from 'node:fs';
import { spawnSync } from 'node:child_process';
import { tmpdir } from 'node:os';
import { basename, dirname, join, resolve } from 'node:path';
import { pathToFileURL } from 'node:url';

/** What the tests are given: the page, the native program, and the folder of examples. */
export const [pagePath, native, examples] = process.argv.slice(2);

/** A folder for the files of a test, which is removed at the end. */
export const work = mkdtempSync(join(tmpdir(), 'page-test-'));

let passed = 0, failed = 0;

/**
 * Counts what holds, and prints what doesn't.
 * @param {boolean} holds
 * @param {string} what
 */
export const expect = (holds, what) => {
    if (holds) passed++;
    else {
        failed++;
        console.log(`WRONG: ${what}`);
    }
};

/**
 * Runs tests, and prints how many passed.
 * @param {string} name
 * @param {() => Promise<void>} tests
 */
export const runAll = async (name, tests) => {
    try {
        await tests();
    } catch (error) {
        expect(false, error.stack);
    } finally {
        rmSync(work, { recursive: true, force: true, maxRetries: 5 });
    }
    console.log(`page/test: ${name} ${passed} passed, ${failed} failed`);
    process.exitCode = failed ? 1 : 0;
};

/** Runs the native program over some input. */
export const own = (input, ...words) => spawnSync(native, words, { input, maxBuffer: 1 << 30 });

/** Writes files into a folder, and returns their paths. */
export const inFolder = (files, folder) => Object.entries(files).map(([name, content]) => {
    const at = join(work, folder, name);
    mkdirSync(dirname(at), { recursive: true });
    writeFileSync(at, content);
    return at;
});

/** Returns the texts of the pages of a PDF, or null if there is no pdftotext. */
export const pagesOf = (bytes, name) => {
    const file = join(work, 'printed.pdf');
    writeFileSync(file, bytes);
    if (process.env.SHOTS) writeFileSync(join(process.env.SHOTS, `${name}.pdf`), bytes);
    const { error, stdout } = spawnSync('pdftotext', ['-layout', file, '-'], { encoding: 'utf8', maxBuffer: 1 << 28 });
    // Firefox prints ligatures
    return error ? null : stdout.normalize('NFKC').split('\f').slice(0, -1);
};

/**
 * Returns what the tests ask of a page in a driver.
 * @param {any} driver
 */
export const tabOf = (driver) => {
    const run = (expression) => driver.run(`return (${expression});`);
    const tab = {
        run,
        text: (id) => run(`document.getElementById(${JSON.stringify(id)}).textContent`),
        /** Answers a line. On a slow machine a count that takes long begins with a click. */
        ask: (line) => run(`(async () => {
            document.getElementById('spot').value = ${JSON.stringify(line)};
            const begin = () => [...document.querySelectorAll('#answer button')].find((it) => it.textContent === 'Count')?.click();
            const clicks = setInterval(begin, 100);
            try { return await page.answer(); } finally { clearInterval(clicks); }
        })()`),
        /** The report below the answer to a spot, or nothing if there is no answer. */
        report: () => run(`(document.querySelector('#answer pre') || { textContent: '' }).textContent`),
        fresh: async () => {
            await driver.go(pathToFileURL(resolve(pagePath)).href);
            await run('page.ready.then(() => 0)');
        },
        /** Resolves once nothing is read or drawn. */
        idle: () => run(`new Promise((done) => {
            const look = () => page.isBusy() ? setTimeout(look, 20) : done(0);
            setTimeout(look, 600);
        })`),
        /** Gives the page files by a script, where the driver has no drop. */
        give: async (files) => {
            const given = files.map((it) => [basename(it), readFileSync(it).toString('base64')]);
            await run(`page.take(${JSON.stringify(given)}.map(([path, text]) =>
                ({ path, file: new File([Uint8Array.from(atob(text), (it) => it.charCodeAt(0))], path) })))`);
        },
        choose: (id, value) => run(`(() => {
            const it = document.getElementById(${JSON.stringify(id)});
            it.value = ${JSON.stringify(value)};
            it.onchange();
            return page.store.drawn();
        })()`),
        /** Waits until an expression holds, at most half a minute, and returns whether it does. */
        until: async (expression) => {
            for (let tries = 0; tries < 300; tries++) {
                if (await run(`Boolean(${expression})`).catch(() => false)) return true;
                await new Promise((done) => { setTimeout(done, 100); });
            }
            return false;
        },
        count: () => run('page.choose().order.length'),
        /** Shows a view, and waits until it is drawn. */
        view: (name) => run(`(page.views.go(${JSON.stringify(name)}), new Promise((done) => setTimeout(() => done(page.store.drawn()), 50)))`),
        /** The points of the graph: x, and what was won. */
        series: (by) => run(`(() => {
            const { hands, played } = page.choose();
            const { x, lines: [won] } = page.seriesOf(hands, played, ${JSON.stringify(by)});
            return [...x].map((at, index) => [at, won[index]]);
        })()`),
        /** Opens a hand, and waits for its sheet to be whole. */
        open: (number) => run(`(async () => {
            const { hands, order } = page.choose(), sheet = document.getElementById('sheet');
            await page.open([...order].find((it) => hands.numbers[it] === ${JSON.stringify(number)}));
            while (sheet.textContent.includes('being computed')) await new Promise((done) => setTimeout(done, 20));
        })()`),
        close: () => run('document.getElementById("close").click()'),
        /** Runs the program in the page, and returns its status and its report. */
        ran: (mode, form, input) => run(`(async () => {
            const input = Uint8Array.from(atob(${JSON.stringify(input.toString('base64'))}), (it) => it.charCodeAt(0));
            const { status, report } = await page.run(${JSON.stringify(mode)}, ${JSON.stringify(form)}, input);
            return status + ' ' + btoa(Array.from(report, (it) => String.fromCharCode(it)).join(''));
        })()`),
        shoot: async (name) => { if (process.env.SHOTS) await driver.shot(join(process.env.SHOTS, name)); },
    };
    return tab;
};
