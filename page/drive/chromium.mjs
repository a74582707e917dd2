// Drives Debian's Chromium, headless, over its debugging pipe, without a package: open() gives { send, on, go, run, shot, close }.

import { spawn } from 'node:child_process';
import { mkdtempSync, rmSync, writeFileSync } from 'node:fs';
import { tmpdir } from 'node:os';
import { join } from 'node:path';

const FLAGS = ['--headless=new', '--no-sandbox', '--disable-gpu', '--no-first-run', '--disable-dev-shm-usage', '--remote-debugging-pipe'];

/** Messages over a pipe, each JSON and a zero byte. */
const talk = (input, output, heard) => {
    const waiting = new Map();
    let next = 1;
    let rest = '';
    output.setEncoding('utf8');
    output.on('data', (text) => {
        const parts = (rest + text).split('\0');
        rest = parts.pop();
        for (const said of parts.map((it) => JSON.parse(it))) {
            if (!said.id) {
                heard(said);
                continue;
            }
            const { done, failed } = waiting.get(said.id);
            waiting.delete(said.id);
            if (said.error) failed(new Error(said.error.message));
            else done(said.result);
        }
    });
    return (method, params = {}, sessionId = undefined) => new Promise((done, failed) => {
        waiting.set(next, { done, failed });
        input.write(`${JSON.stringify({ id: next++, method, params, sessionId })}\0`);
    });
};

/** @param {{ dark?: boolean, flags?: string[] }} [options] */
export const open = async ({ dark = false, flags = [] } = {}) => {
    const profile = mkdtempSync(join(tmpdir(), 'page-chromium-'));
    const child = spawn(process.env.CHROME || 'chromium', [...FLAGS, `--user-data-dir=${profile}`, ...flags, 'about:blank'], {
        stdio: ['ignore', 'ignore', 'ignore', 'pipe', 'pipe'],
    });
    const ended = new Promise((done) => { child.on('exit', done); });
    const listeners = [];
    const raw = talk(child.stdio[3], child.stdio[4], (said) => listeners.forEach((it) => it(said)));
    const { targetInfos } = await raw('Target.getTargets');
    const { sessionId } = await raw('Target.attachToTarget', { targetId: targetInfos.find((it) => it.type === 'page').targetId, flatten: true });
    const send = (method, params) => raw(method, params, sessionId);
    await send('Page.enable');
    if (dark) await send('Emulation.setEmulatedMedia', { features: [{ name: 'prefers-color-scheme', value: 'dark' }] });
    return {
        send,
        on: (it) => listeners.push(it),
        go: async (url) => {
            const loaded = new Promise((done) => { listeners.push(({ method }) => method === 'Page.loadEventFired' && done()); });
            await send('Page.navigate', { url });
            await loaded;
        },
        /** Runs the body of an async function in the page. */
        run: async (body) => {
            const expression = `(async () => { ${body} })()`;
            const { result, exceptionDetails } = await send('Runtime.evaluate', { expression, awaitPromise: true, returnByValue: true });
            if (exceptionDetails) throw new Error(exceptionDetails.exception?.description || exceptionDetails.text);
            return result.value;
        },
        shot: async (path) => {
            const { data } = await send('Page.captureScreenshot', { format: 'png', captureBeyondViewport: true });
            writeFileSync(path, Buffer.from(data, 'base64'));
        },
        close: async () => {
            await raw('Browser.close').catch(() => {});
            await ended;
            rmSync(profile, { recursive: true, force: true, maxRetries: 5 });
        },
    };
};
