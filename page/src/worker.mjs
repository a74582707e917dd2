// A worker of the page: it holds the proved program, and answers one job at a time.

import { makeEngine } from '../equity.mjs';
import { buffersOf, readPart } from './part.mjs';
import { STATUS } from './statuses.mjs';

/** @type {Awaited<ReturnType<typeof makeEngine>>} */
let engine;

/**
 * @param {string} mode
 * @param {string} form
 * @param {Uint8Array} input
 */
const reported = (mode, form, input) => {
    const { status, report } = engine.run(mode, form, input);
    if (status > 1) throw new Error(STATUS[status] || `the program ended with status ${status}`);
    return report;
};

/**
 * Returns the module from its text in base64, which is packed by gzip.
 * @param {string} text
 */
const compiled = async (text) => {
    const letters = atob(text), packed = new Uint8Array(letters.length);
    for (let at = 0; at < packed.length; at++) packed[at] = letters.charCodeAt(at);
    // (WebKit's workers can't read a `Blob`)
    const stream = /** @type {ReadableStream<Uint8Array>} */ (new Response(packed).body);
    return WebAssembly.compile(await new Response(stream.pipeThrough(new DecompressionStream('gzip'))).arrayBuffer());
};

onmessage = async ({ data }) => {
    const port = /** @type {any} */ (globalThis);
    try {
        if (data.packed) {
            port.postMessage({ module: await compiled(data.packed) });
        } else if (data.module) {
            engine = await makeEngine(data.module);
            port.postMessage({});
        } else if (data.part) {
            const decoder = new TextDecoder();
            const part = readPart((mode, input) => decoder.decode(reported(mode, 'csv', input)), data.part);
            port.postMessage({ answer: part }, buffersOf(part));
        } else {
            const answer = engine.run(data.mode, data.form, data.input);
            port.postMessage({ answer }, [answer.report.buffer]);
        }
    } catch (error) {
        port.postMessage({ error: error instanceof Error ? error.message : String(error) });
    }
};
