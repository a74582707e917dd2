// The workers of the page: some for files, some for spots, which start when ranges are counted in parts, and one for
// single hands. So neither spots nor hands wait behind a file.

import { makePool } from './pool.mjs';

const MOST = 8, MOST_COARSE = 4;

/** Returns how many workers read files: as many as there are processors, and fewer on a phone. */
const sizeOfPool = () => Math.max(
    1, Math.min(navigator.hardwareConcurrency || 2, matchMedia('(pointer: coarse)').matches ? MOST_COARSE : MOST));

const textOf = (/** @type {string} */ id) => /** @type {any} */ (document.getElementById(id)).textContent;

/**
 * Has a worker unpack and compile the module of the page, once for all workers. That takes too long for the page's own
 * thread.
 * @param {() => Worker} start
 * @returns {Promise<WebAssembly.Module>}
 */
const compiled = (start) => new Promise((yes, no) => {
    const worker = start();
    worker.onmessage = ({ data }) => {
        worker.terminate();
        if (data.module) yes(data.module);
        else no(new Error(data.error));
    };
    worker.onerror = ({ message }) => no(new Error(message || 'a worker failed'));
    worker.postMessage({ packed: textOf('module') });
});

/** Starts the engines. Throws if this browser can't run the program. */
export const startEngines = async () => {
    const address = URL.createObjectURL(new Blob([textOf('worker')], { type: 'text/javascript' }));
    const start = () => new Worker(address), module = await compiled(start);
    const files = makePool(start, module, sizeOfPool()), spots = makePool(start, module, sizeOfPool()),
          hands = makePool(start, module, 1);
    return { files, spots, hands };
};
