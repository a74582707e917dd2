// The buttons that keep reports and tables. Each says how far it is, and can be stopped.

import { resultsTable } from './books.mjs';
import { $, save } from './dom.mjs';
import { reportOf } from './keep.mjs';
import { progressOf } from './progress.mjs';

const REPORTS = [
    ['keep-audit', 'audit', 'text'], ['keep-csv', 'audit', 'csv'], ['keep-streets', 'streets', 'text'],
    ['keep-results', 'results', 'csv'], ['keep-settle', 'settle', 'text']
];

/**
 * Makes the buttons. Returns a function that makes a report and hands it to the user.
 * @param {import('./store.mjs').State} state
 * @param {() => import('./choice.mjs').Choice} choose
 * @param {ReturnType<typeof import('./engines.mjs').startEngines>} ready
 */
export const makeKeep = (state, choose, ready) => {
    let isStopped = false, isAt = false;
    const say = (/** @type {string} */ text) => { $('kept').textContent = text; };
    $('keep-stop').onclick = () => { isStopped = true; };

    /**
     * Runs a job that says how far it is.
     * @param {(began: number) => Promise<void>} job
     */
    const work = async (job) => {
        if (isAt) return;
        isAt = true;
        isStopped = false;
        $('keep-stop').hidden = false;
        try {
            await job(performance.now());
        } catch (error) {
            say(isStopped ? 'Stopped. Nothing was kept.'
                          : `Nothing was kept: ${error instanceof Error ? error.message : error}.`);
        } finally {
            isAt = false;
            $('keep-stop').hidden = true;
        }
    };

    /**
     * @param {string} mode
     * @param {string} form
     * @returns {Promise<Uint8Array[]>}
     */
    const keep = async (mode, form) => {
        /** @type {Uint8Array[]} */
        let parts = [];
        await work(async (began) => {
            const { sources } = state.collections[state.collection],
                  all = sources.reduce((sum, { file }) => sum + file.size, 0);
            let done = 0;
            const onPiece = (/** @type {number} */ bytes) => {
                done += bytes;
                say(`${mode}: ${progressOf(done, all, (performance.now() - began) / 1000)}`);
            };
            parts = await reportOf((await ready).files, sources, mode, form, onPiece, () => isStopped);
            const name = `${mode}.${form === 'csv' ? 'csv' : 'txt'}`;
            save(name, form === 'csv' ? 'text/csv' : 'text/plain', parts);
            say(`${name} is kept.`);
        });
        return parts;
    };

    for (const [id, mode, form] of REPORTS) $(id).onclick = () => keep(mode, form);
    $('keep-table').onclick = () => work(async (began) => {
        const { hands, order } = choose(), parts = [];
        let count = 0;
        for (const piece of resultsTable(hands, order)) {
            parts.push(piece);
            count += 1000;
            if (performance.now() - began > 100) {
                say(`results as a table: ${Math.min(99, Math.floor(100 * count / order.length))}%`);
                await new Promise((done) => setTimeout(done));
            }
            if (isStopped) throw new Error('stopped');
        }
        save('results-table.csv', 'text/csv', parts);
        say('results-table.csv is kept.');
    });
    return keep;
};
