// The sheet for a dispute: an element of its own that is printed, so nothing in it scrolls and nothing is cut.

import { cardsIn } from './cards.mjs';
import { head, icon, node } from './dom.mjs';
import { inLine } from './play.mjs';
import { table } from './table.mjs';
import { MINUS } from './words.mjs';

/** @typedef {import('./sheet.mjs').Sheet} Sheet */
/**
 * What a sheet says of the file and the program.
 * @typedef {{ file: string, fileSum: string, version: string, moduleSum: string, date: string }} Origin
 */

const minus = (/** @type {string} */ amount) => amount.replace(/^-/, MINUS);

/**
 * Returns the pots of a hand: what the rules give of each, and who got what.
 * @param {Sheet} sheet
 */
export const potNodes = ({ pots, board, paid }) => [...board ? [node('p', `Board: ${board}`)] : [],
    ...pots.flatMap((pot) => [node('h4', `${pot.name}: ${pot.gross}${pot.rake ? `, less rake ${pot.rake}` : ''}`),
                        ...pot.rules.length ? [node('p.rule', pot.rules.join(' '))] : [],
                        ...pot.winners.map((it) => node('p', it)),
                        ...pot.shares.length ? [table(['Player', 'Cards', 'Due', 'Got', 'Difference'],
                            pot.shares.map((it) => [it.name, it.cards, it.due, it.got, minus(it.gap)]), {})]
                                             : [],
]),
    ...paid.length ? [node('h4', 'Paid'), table(['Player', 'Got'], paid.map((it) => [it.name, it.got]), {})] : [],
];

/**
 * Returns the pots of a hand as one table, with the rules that give them.
 * @param {Sheet} sheet
 */
export const potTable = ({ pots, paid }) => {
    const heads = [['Pot', ''], ['Player', ''], ['Due', '.number'], ['Got', '.number'], ['Difference', '.number']];
    const rows = pots.flatMap(({ name, gross, rake, shares }) => (shares.length ? shares : [null]).map((share, at) =>
        node('tr', head('row', 'th', ...at ? [node('span.vh', name)] : [name, node('span.soft', ` ${gross}`),
            ...rake ? [node('span.faint', `, rake ${rake}`)] : []]),
        node('td.name', share ? share.name : '', ' ', ...share ? inLine(cardsIn(share.cards)) : []),
        node('td.number', share ? share.due : ''), node('td.number', share ? share.got : ''),
        node(share && share.due !== share.got && share.gap ? 'td.number.off' : 'td.number.faint',
            share ? minus(share.gap) : ''))));
    const paidRows = paid.map(({ name, got }) => node('tr', head('row', 'th', 'Paid'), node('td.name', name),
        node('td.number', ''), node('td.number', got), node('td.number', '')));
    const rules = [...new Set(pots.flatMap((it) => it.rules))];
    return node('div.scrolls', node('table.t', node('thead',
        node('tr', ...heads.map(([text, classes]) => head('col', `th${classes}`, text)))),
    node('tbody', ...rows, ...paidRows)),
    node('div.pots', ...pots.flatMap((it) => it.winners.map((winner) =>
        node('p', pots.length > 1 ? `${it.name}. ` : '', winner))), node('p.rule', rules.join(' '))));
};

/**
 * Returns the verdict and what is to be settled.
 * @param {Sheet} sheet
 */
export const findingNode = ({ isAccepted, finding, orders }) => node(isAccepted ? 'div.finding' : 'div.finding.is-bad',
    icon(isAccepted ? 'check' : 'warn'), node('div', node('p.verdict', finding.title),
        ...finding.sentence ? [node('p', `${finding.sentence} ${finding.at}`)] : [],
        ...orders.sentences.map((it) => node(orders.isNeeded ? 'p.settle' : 'p', it))));

/**
 * Returns the text of a hand with the line numbers of its file.
 * @param {Sheet} sheet
 */
export const textNode = ({ lines }) => node('div.text',
    ...lines.map(({ number, text, isMarked }) => node(isMarked ? 'div.line.marked' : 'div.line',
                     node('span.at', String(number)), ' ', node('span.what', text), '\n')));

/**
 * Fills the sheet.
 * @param {HTMLElement} place
 * @param {Sheet} sheet
 * @param {Origin} origin
 */
export const showSheet = (place, sheet, origin) => {
    const facts = [
        ['File', origin.file], ['SHA-256 of the file', origin.fileSum],
        ['Program', `equity ${origin.version}, in WebAssembly; its figures are those of proved code`],
        ['SHA-256 of the module', origin.moduleSum], ['Date of this sheet', origin.date],
        ['To check it', 'equity settle < FILE prints the verdict and the amounts of this sheet']
    ];
    place.replaceChildren(
        node('p.kind', `equity: audit of one hand, ${sheet.isAccepted ? 'accepted' : 'rejected'}`),
        node('h1', `Hand ${sheet.number}`),
        node('p', sheet.played),
        findingNode(sheet),
        ...sheet.rule ? [node('h2', 'The rule'), node('p.rule', sheet.rule)] : [],
        ...sheet.pots.length ? [node('h2', 'What the rules give of each pot'), ...potNodes(sheet)] : [],
        node('h2', 'The text, with the line numbers of the file'),
        textNode(sheet),
        node('div.origin', ...facts.map(([name, value]) => node('p', node('b', `${name}: `), node('span', value)))),
    );
};
