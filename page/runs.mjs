// Runs made inputs in the native program, in Node, and in three browsers, and compares all reports and statuses by their checksums.
//
//   node page/runs.mjs MODULE.wasm EQUITY [COUNT]       COUNT runs, 300 if no number is given
//
// It prints a line for each engine: runs, seconds, and the checksum of all. The status is 0 if all are equal, 1 if one differs (a line
// names the first hundred runs that do), and 77 if no browser is there.

import { execFileSync, spawnSync } from 'node:child_process';
import { existsSync, mkdtempSync, readFileSync, readdirSync, rmSync, writeFileSync } from 'node:fs';
import { tmpdir } from 'node:os';
import { dirname, join } from 'node:path';
import { fileURLToPath, pathToFileURL } from 'node:url';
import { makeEngine } from './equity.mjs';
import { checksums } from './inputs.mjs';
import * as chromium from './drive/chromium.mjs';
import * as firefox from './drive/firefox.mjs';
import * as webkit from './drive/webkit.mjs';

const here = dirname(fileURLToPath(import.meta.url));
const [modulePath, native, given] = process.argv.slice(2);
const COUNT = Number(given || 300);
const STEP = 100;

const examples = join(dirname(here), 'examples');
const histories = readdirSync(examples).filter((it) => it.endsWith('.txt')).sort()
    .map((it) => readFileSync(join(examples, it), 'utf8')).filter((it) => it.includes('PokerStars '));

const byNative = (mode, form, input) => {
    const { status, stdout } = spawnSync(native, [mode, '--format', form], { input, maxBuffer: 1 << 28 });
    return { status, report: stdout };
};

const hasTool = (name) => (process.env.PATH || '').split(':').some((it) => existsSync(join(it, name)));

/** A page that runs all of it by itself, and keeps the checksums. */
const writePage = (folder) => {
    const entry = join(folder, 'entry.mjs');
    writeFileSync(entry, `export { makeEngine } from ${JSON.stringify(join(here, 'equity.mjs'))};\nexport { checksums } from ${JSON.stringify(join(here, 'inputs.mjs'))};\n`);
    const script = execFileSync('esbuild', [entry, '--bundle', '--format=iife', '--global-name=tried', '--charset=utf8', '--log-level=warning'], { encoding: 'utf8' });
    const module = readFileSync(modulePath).toString('base64');
    const texts = JSON.stringify(histories).replaceAll('<', '\\u003c');
    const path = join(folder, 'runs.html');
    writeFileSync(path, `<!doctype html><meta charset="utf-8"><title>runs</title><script>${script}
const histories = ${texts};
window.runAll = async (count, step) => {
    const { run } = await tried.makeEngine(Uint8Array.from(atob("${module}"), (it) => it.charCodeAt(0)));
    return tried.checksums(run, histories, count, step);
};
</script>`);
    return pathToFileURL(path).href;
};

const report = async (name, run) => {
    const start = Date.now();
    const sums = await run();
    console.log(`${name.padEnd(9)} ${COUNT} runs ${((Date.now() - start) / 1000).toFixed(1).padStart(7)} s  ${sums[sums.length - 1]}`);
    return sums;
};

const work = mkdtempSync(join(tmpdir(), 'page-runs-'));
let status = 0;
let browsers = 0;
try {
    const there = await report('native', () => checksums(byNative, histories, COUNT, STEP));
    const compare = (name, sums) => {
        const at = there.findIndex((it, place) => it !== sums[place]);
        if (at < 0) return;
        console.log(`WRONG: ${name} differs in the runs ${at * STEP} to ${Math.min(COUNT, (at + 1) * STEP) - 1}`);
        status = 1;
    };
    const { run } = await makeEngine(readFileSync(modulePath));
    compare('node', await report('node', () => checksums(run, histories, COUNT, STEP)));
    const url = hasTool('esbuild') ? writePage(work) : null;
    for (const [name, tool, { open }] of [['chromium', 'chromium', chromium], ['firefox', 'firefox-esr', firefox], ['webkit', 'WebKitWebDriver', webkit]]) {
        if (!url || !hasTool(tool)) {
            console.log(`${name}: not tried, because there is no ${url ? tool : 'esbuild'}`);
            continue;
        }
        const driver = await open({ seconds: 3600 });
        try {
            await driver.go(url);
            compare(name, await report(name, () => driver.run(`return window.runAll(${COUNT}, ${STEP})`)));
            browsers++;
        } finally {
            await driver.close();
        }
    }
    if (!browsers && !status) status = 77;
} finally {
    rmSync(work, { recursive: true, force: true });
}
process.exitCode = status;
