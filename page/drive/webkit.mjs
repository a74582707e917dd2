// Drives Debian's WebKit (MiniBrowser by WebKitWebDriver, in a screen of Xvfb), without a package.
// open() gives { go, run, shot, close }. The driver hangs on answers of many megabytes, and takes one picture a session.

import { spawn } from 'node:child_process';
import { existsSync, mkdtempSync, rmSync, writeFileSync } from 'node:fs';
import { request } from 'node:http';
import { createServer } from 'node:net';
import { tmpdir } from 'node:os';
import { join } from 'node:path';

const BROWSERS = ['4.1', '4.0', '6.0'].map((it) => `/usr/lib/x86_64-linux-gnu/webkit2gtk-${it}/MiniBrowser`);
const SCREEN = '1280x1600x24';

/** The browser's path, or undefined. */
export const browser = () => BROWSERS.find((it) => existsSync(it));

const freePort = () => new Promise((done) => {
    const server = createServer();
    server.listen(0, '127.0.0.1', () => {
        const { port } = server.address();
        server.close(() => done(port));
    });
});

const ask = (port, method, path, body) => new Promise((done, failed) => {
    const it = request({ host: '127.0.0.1', port, method, path, headers: { 'Content-Type': 'application/json' } }, (answer) => {
        let text = '';
        answer.setEncoding('utf8');
        answer.on('data', (part) => { text += part; });
        answer.on('end', () => {
            const { value } = JSON.parse(text);
            if (answer.statusCode === 200) done(value);
            else failed(new Error(value.message || value.error));
        });
    });
    it.on('error', failed);
    it.end(body ? JSON.stringify(body) : undefined);
});

/** A screen of its own, and its name. */
const screen = () => new Promise((done, failed) => {
    const child = spawn('Xvfb', ['-displayfd', '3', '-screen', '0', SCREEN, '-nolisten', 'tcp'], { stdio: ['ignore', 'ignore', 'ignore', 'pipe'] });
    child.on('error', failed);
    child.stdio[3].once('data', (text) => done({ child, display: `:${String(text).trim()}` }));
});

const started = async (port) => {
    for (let tries = 0; tries < 100; tries++) {
        try {
            await ask(port, 'GET', '/status');
            return;
        } catch {
            await new Promise((done) => { setTimeout(done, 100); });
        }
    }
    throw new Error('WebKitWebDriver does not answer');
};

/** @param {{ dark?: boolean, seconds?: number }} [options] */
export const open = async ({ dark = false, seconds = 600 } = {}) => {
    const home = mkdtempSync(join(tmpdir(), 'page-webkit-'));
    const { child: x, display } = await screen();
    const port = await freePort();
    const env = {
        ...process.env, HOME: home, XDG_RUNTIME_DIR: home, DISPLAY: display, WEBKIT_DISABLE_SANDBOX_THIS_IS_DANGEROUS: '1',
        LIBGL_ALWAYS_SOFTWARE: '1', WEBKIT_DISABLE_COMPOSITING_MODE: '1', ...dark && { GTK_THEME: 'Adwaita:dark' },
    };
    const driver = spawn('WebKitWebDriver', [`--port=${port}`], { env, stdio: 'ignore' });
    const end = () => {
        driver.kill();
        x.kill();
        rmSync(home, { recursive: true, force: true, maxRetries: 5 });
    };
    try {
        await started(port);
        const options = { binary: browser(), args: ['--automation'] };
        const { sessionId } = await ask(port, 'POST', '/session', {
            capabilities: { alwaysMatch: { browserName: 'MiniBrowser', 'webkitgtk:browserOptions': options } },
        });
        const send = (method, path, body) => ask(port, method, `/session/${sessionId}${path}`, body);
        await send('POST', '/timeouts', { script: seconds * 1000, pageLoad: seconds * 1000 });
        return {
            go: (url) => send('POST', '/url', { url }),
            /** Runs the body of an async function in the page. */
            run: async (body) => {
                const script = `const done = arguments[0]; (async () => { ${body} })().then((it) => done([it]), (it) => done(String(it)));`;
                const said = await send('POST', '/execute/async', { script, args: [] });
                if (!Array.isArray(said)) throw new Error(said);
                return said[0];
            },
            shot: async (path) => writeFileSync(path, Buffer.from(await send('GET', '/screenshot'), 'base64')),
            close: async () => {
                await send('DELETE', '').catch(() => {});
                end();
            },
        };
    } catch (error) {
        end();
        throw error;
    }
};
