// Drives Debian's Firefox, headless, by Marionette, without a package: open() gives { go, run, shot, close }.

import { spawn } from 'node:child_process';
import { mkdtempSync, readFileSync, rmSync, writeFileSync } from 'node:fs';
import { connect } from 'node:net';
import { tmpdir } from 'node:os';
import { join } from 'node:path';

// Marionette's own preferences let a file import its neighbors, which no user's Firefox does; port 0 is a free one
const PREFERENCES = 'user_pref("remote.prefs.recommended", false);\nuser_pref("marionette.port", 0);\n';

/** The port that Firefox writes into its profile once it listens. */
const portOf = async (profile) => {
    for (let tries = 0; tries < 600; tries++) {
        try {
            return Number(readFileSync(join(profile, 'MarionetteActivePort'), 'utf8'));
        } catch {
            await new Promise((done) => { setTimeout(done, 200); });
        }
    }
    throw new Error('Firefox does not answer');
};

/** A socket whose messages are a length, a colon, and JSON. */
const talk = (socket) => {
    const waiting = new Map();
    let rest = Buffer.alloc(0);
    let next = 1;
    socket.on('data', (bytes) => {
        rest = Buffer.concat([rest, bytes]);
        for (let colon = rest.indexOf(':'); colon > 0; colon = rest.indexOf(':')) {
            const end = colon + 1 + Number(rest.subarray(0, colon));
            if (rest.length < end) return;
            const said = JSON.parse(rest.subarray(colon + 1, end));
            rest = rest.subarray(end);
            if (!Array.isArray(said)) continue;
            const { done, failed } = waiting.get(said[1]);
            waiting.delete(said[1]);
            if (said[2]) failed(new Error(said[2].message));
            else done(said[3]);
        }
    });
    return (command, words = {}) => new Promise((done, failed) => {
        const text = JSON.stringify([0, next, command, words]);
        waiting.set(next++, { done, failed });
        socket.write(`${Buffer.byteLength(text)}:${text}`);
    });
};

/** @param {{ dark?: boolean, seconds?: number }} [options] */
export const open = async ({ dark = false, seconds = 600 } = {}) => {
    const profile = mkdtempSync(join(tmpdir(), 'page-firefox-'));
    const scheme = `user_pref("ui.systemUsesDarkTheme", ${Number(dark)});\nuser_pref("layout.css.prefers-color-scheme.content-override", ${dark ? 0 : 1});\n`;
    writeFileSync(join(profile, 'user.js'), PREFERENCES + scheme);
    const child = spawn('firefox-esr', ['--headless', '--marionette', '--no-remote', '--profile', profile], {
        stdio: 'ignore', env: { ...process.env, HOME: profile },
    });
    const ended = new Promise((done) => { child.on('exit', done); });
    const socket = connect(await portOf(profile), '127.0.0.1');
    const send = talk(socket);
    await send('WebDriver:NewSession', { capabilities: {} });
    await send('WebDriver:SetTimeouts', { script: seconds * 1000, pageLoad: seconds * 1000 });
    return {
        send,
        go: (url) => send('WebDriver:Navigate', { url }),
        /** Runs the body of an async function in the page. */
        run: async (body) => {
            const script = `const done = arguments[0]; (async () => { ${body} })().then((it) => done([it]), (it) => done(String(it)));`;
            const { value } = await send('WebDriver:ExecuteAsyncScript', { script, args: [] });
            if (!Array.isArray(value)) throw new Error(value);
            return value[0];
        },
        shot: async (path) => {
            const { value } = await send('WebDriver:TakeScreenshot', { full: true });
            writeFileSync(path, Buffer.from(value, 'base64'));
        },
        close: async () => {
            socket.destroy();
            child.kill();
            await ended;
            rmSync(profile, { recursive: true, force: true, maxRetries: 5 });
        },
    };
};
