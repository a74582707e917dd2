// The program, unpacked and compiled at the first call.

import { makeEngine } from '../../../page/equity.mjs';
import packed from './equity.wasm.gz';
import { EquityError, statusError } from './errors.mjs';

/** @typedef {import('../equity').Report} Report */

/** @type {ReturnType<typeof makeEngine> | undefined} */
let engine;

const unpack = async () => {
    const bytes = Uint8Array.from(atob(packed), (it) => it.charCodeAt(0));
    const stream = new Blob([bytes]).stream().pipeThrough(new DecompressionStream('gzip'));
    return makeEngine(await new Response(stream).arrayBuffer());
};

const started = () => {
    if (!engine) {
        engine = unpack().catch((error) => {
            throw new EquityError('NO_MODULE', `the program can't be started here: ${error.message}`);
        });
    }
    return engine;
};

/**
 * Runs `equity MODE --format FORM` over an input, on the calling thread, and returns the exit status, 0 or 1, and the report.
 * @param {string} mode
 * @param {'text' | 'csv'} form
 * @param {Uint8Array} input
 * @returns {Promise<Report>}
 */
export const run = async (mode, form, input) => {
    const program = await started();
    let ran;
    try {
        ran = program.run(mode, form, input);
    } catch (error) {
        throw new EquityError('TRAP', `the program broke off: ${/** @type {Error} */ (error).message}`);
    }
    const { status, report } = ran;
    if (status !== 0 && status !== 1) throw statusError(status);
    return { status, report };
};
