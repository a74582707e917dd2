// The view of files: those without a hand with the likely reason, and those with hands.

import { $, head, node } from './dom.mjs';
import { counted, many, megabytes } from './progress.mjs';

/** @typedef {import('./hands.mjs').Hands} Hands */
/** @typedef {import('./reader.mjs').Missed} Missed */

const MOST = 1000;

/**
 * @param {[string, string][]} heads
 * @param {HTMLElement[]} rows
 */
const listed = (heads, rows) => node('table.t',
    node('thead', node('tr', ...heads.map(([text, classes]) => head('col', `th${classes}`, text)))),
    node('tbody', ...rows.slice(0, MOST)),
    ...rows.length > MOST ? [node('tfoot', node('tr', node('td', `and ${counted(rows.length - MOST)} more`)))] : []);

/**
 * Shows the files of a collection.
 * @param {Hands} hands
 * @param {Missed[]} missed
 * @param {boolean} isExample
 */
export const showFiles = ({ count, columns, sources }, missed, isExample) => {
    const found = new Uint32Array(sources.length), isMissed = new Set(missed.map(({ path }) => path));
    for (let hand = 0; hand < count; hand++) found[columns.file[hand]]++;
    const some = sources.map(({ path, file }, at) => ({ path, size: file.size, hands: found[at] }))
        .filter((it) => it.hands || !isMissed.has(it.path));
    const bytes = sources.reduce((sum, { file }) => sum + file.size, 0);
    $('files-sum').textContent = `${many(sources.length, 'file')}, ${megabytes(bytes)}, ${many(count, 'hand')}`
        + `${isExample ? ', the example' : ''}`;
    $('clear-all').hidden = isExample;
    $('missed').hidden = !missed.length;
    $('missed-title').textContent = `${many(missed.length, 'file')} without a hand, or not read to the end`;
    $('missed-files').replaceChildren(listed([['File', ''], ['Likely reason', '']], missed.map(({ path, reason }) =>
        node('tr', head('row', 'th.name', path), node('td', `${reason}.`)))));
    $('some-title').textContent = `${many(some.length, 'file')} with hands`;
    $('some-files').replaceChildren(listed([['File', ''], ['Hands', '.number'], ['Size', '.number.hide-s']],
        some.map((it) => node('tr', head('row', 'th.name', it.path), node('td.number', counted(it.hands)),
            node('td.number.soft.hide-s', megabytes(it.size))))));
};

/**
 * Shows on the tab how many files had no hand.
 * @param {Missed[]} missed
 */
export const markMissed = (missed) => {
    $('missed-count').hidden = !missed.length;
    $('missed-count').textContent = counted(missed.length);
    $('missed-count').title = 'files without a hand, or not read to the end';
};
