// The example page in the browsers that are there, over a server on this computer.
import assert from 'node:assert/strict';
import { existsSync, readFileSync } from 'node:fs';
import { createServer } from 'node:http';
import { extname, join } from 'node:path';
import { fileURLToPath } from 'node:url';
import test from 'node:test';

const top = fileURLToPath(new URL('../../../', import.meta.url));
const TYPES = { '.html': 'text/html', '.mjs': 'text/javascript' };
const hasTool = (name) => process.env.PATH.split(':').some((it) => existsSync(join(it, name)));
const server = createServer(({ url }, answer) => {
    const path = join(top, url);
    if (!existsSync(path) || !TYPES[extname(path)]) answer.writeHead(404).end();
    else answer.writeHead(200, { 'Content-Type': TYPES[extname(path)] }).end(readFileSync(path));
});

for (const [name, tool] of [['chromium', 'chromium'], ['firefox', 'firefox-esr'], ['webkit', 'WebKitWebDriver']]) {
    const drive = join(process.env.DRIVE || join(top, 'page/drive'), `${name}.mjs`);
    const skip = hasTool(tool) && existsSync(drive) ? false : `there is no ${tool}`;
    test(`the example answers a spot in ${name}`, { skip, timeout: 120000 }, async () => {
        const { open } = await import(drive);
        await new Promise((done) => { server.listen(0, '127.0.0.1', done); });
        const browser = await open();
        try {
            await browser.go(`http://127.0.0.1:${server.address().port}/packages/js/examples/spot.html`);
            const text = await browser.run(`
                for (let tries = 0; tries < 300 && !document.getElementById('note').textContent; tries++) await new Promise((done) => setTimeout(done, 100));
                return document.getElementById('hands').textContent + ' ' + document.getElementById('note').textContent;`);
            assert.equal(text, 'hand 10.95521/22hand 20.0451/22 44 runouts');
        } finally {
            await browser.close();
            await new Promise((done) => { server.close(done); });
        }
    });
}
