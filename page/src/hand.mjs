// The view of one hand: its story, and as a sheet to print. Its text is read from its file again.

import { $, head, node } from './dom.mjs';
import { feltNode } from './felt.mjs';
import { oddsOf, spotLine } from './odds.mjs';
import { findingNode, potTable, showSheet, textNode } from './paper.mjs';
import { inLine } from './play.mjs';
import { handAt } from './played.mjs';
import { UNKNOWN } from './part.mjs';
import { positionsOf, POSITIONS } from './positions.mjs';
import { counted } from './progress.mjs';
import { replay } from './replay.mjs';
import { potName } from './settling.mjs';
import { sheetOf } from './sheet.mjs';
import { oddsNodes, streetNode } from './story.mjs';
import { bytesOf, sumOfFile } from './source.mjs';
import { facts, numbered } from './texts.mjs';
import { signOf, sumText, toneOf } from './words.mjs';

/** @typedef {import('./hands.mjs').Hands} Hands */
/** @typedef {import('./sheet.mjs').Sheet} Sheet */
/** @typedef {ReturnType<typeof handAt>} HandAt */
/** @typedef {(mode: string, form: string, input: Uint8Array) => Promise<string>} Report */

/**
 * Returns what each player of an accepted hand won, and would have won with average luck.
 * @param {Hands} hands
 * @param {number} hand
 */
const resultsOf = ({ columns, texts }, hand) => {
    const rows = [];
    for (let row = columns.first[hand]; row < columns.first[hand + 1]; row++) {
        const net = columns.net[row], isKnown = !(columns.marks[row] & UNKNOWN);
        rows.push({ name: texts[columns.name[row]], net, even: isKnown ? columns.even[row] : null });
    }
    return rows;
};

/**
 * Returns the table of what the cards did, or of the results if there is no counted all-in.
 * @param {ReturnType<typeof resultsOf>} rows
 * @param {Map<string, string>} expected
 * @param {(sum: bigint) => string} say
 */
const resultsNode = (rows, expected, say) => {
    const isCounted = expected.size > 0, some = rows.filter(({ name, net }) => isCounted ? expected.has(name) : net);
    if (!some.length) return [];
    const heads = ['Won', ...isCounted ? ['Adjusted', 'Luck'] : []];
    return [node('section.panel', node('header', node('h2', isCounted ? 'What the cards did' : 'Results')),
        node('table.t', node('thead', node('tr', head('col', 'th', 'Player'),
            ...heads.map((text) => head('col', 'th.number', text)))),
        node('tbody', ...some.map(({ name, net, even }) => node('tr', head('row', 'th.name', name),
            node('td.number', say(net)), ...isCounted ? [
                node('td.number', even === null ? 'not known' : say(even)),
                node(`td.number.${even === null ? 'faint' : toneOf(net - even) || 'faint'}`,
                    even === null ? '' : say(net - even))] : [])))))];
};

/**
 * Makes the view of a hand. `report` runs the program over some text, and `ask` asks a line as a spot.
 * @param {{ report: Report, ask: (line: string) => void, heroOf: (hand: number) => string }} page
 */
export const makeHand = ({ report, ask, heroOf }) => {
    let opened = 0, text = '', street = -1;

    /**
     * Draws the story.
     * @param {Hands} hands
     * @param {HandAt} it
     * @param {Sheet} model
     * @param {string} csv  the report `streets`
     */
    const draw = (hands, it, model, csv) => {
        const { isMoney, unit, line, hand } = it, odds = oddsOf(csv), game = replay(text, line, isMoney);
        const told = facts(text), sign = signOf(unit), hero = heroOf(hand);
        const say = (/** @type {bigint} */ sum) => sumText(sum, { isMoney, sign });
        const plus = (/** @type {bigint} */ sum) => sumText(sum, { isMoney, sign, plus: true });
        const results = it.isAccepted ? resultsOf(hands, hand) : [], own = results.find(({ name }) => name === hero);
        const places = positionsOf(text, told.seats, told.button, game.seats.map(({ name }) => name));
        const positions = new Map([...places].map(([name, code]) => [name, POSITIONS[code]]));
        const hasBoard = game.streets.some(({ board }) => board.length);
        const shown = { game, hero, positions, say, boardSize: hasBoard || it.game.startsWith('holdem') ? 5 : 0 };
        const holder = node('div.table-box'), steps = node('div.steps');
        steps.setAttribute('role', 'group');
        steps.setAttribute('aria-label', 'Street shown on the table');
        const go = (/** @type {number} */ at) => {
            street = at;
            holder.replaceChildren(feltNode(shown, at));
            [...steps.children].forEach((step, index) => index === at ? step.setAttribute('aria-current', 'step')
                : step.removeAttribute('aria-current'));
        };
        game.streets.forEach(({ name }, at) => {
            const step = node('button', name.replace('showdown', 'Showdown').replace(/ street$/, ''));
            step.setAttribute('type', 'button');
            step.onclick = () => go(at);
            steps.append(step);
        });
        go(Math.min(street < 0 ? game.streets.length - 1 : street, game.streets.length - 1));

        const potText = (/** @type {number} */ number) => /** @type {[string, string]} */ ([
            potName(/** @type {any} */ ({ number }), odds.grosses.length),
            model.pots[number] ? model.pots[number].gross : '']);
        const streets = game.streets.map((part) => {
            const at = odds.streets.findIndex((other) => other.street === part.key), found = odds.streets[at];
            const spot = found ? spotLine(odds.game, found, { board: part.board, cards: game.cards,
                folded: game.folded }) : '';
            return streetNode(part, { say, ask: spot ? () => ask(spot) : null, odds: found ? oddsNodes(found,
                odds.streets[at - 1], { potText, cards: game.cards, hero }) : [] });
        });
        const luck = own && own.even !== null ? own.net - own.even : 0n, cards = game.cards.get(hero) || [];
        $('title').replaceChildren(...own ? [...inLine(cards), ' ',
            node(`span.${toneOf(own.net) || 'soft'}`, plus(own.net)),
            ...luck ? [node('span.soft', ` luck ${plus(luck)}`)] : [], node('span.vh', `, hand ${it.number}`)]
            : [`Hand ${it.number}`]);
        $('body').replaceChildren(findingNode(model), node('div.handcols',
            node('div.side', node('section.panel', holder, steps), ...resultsNode(results, odds.expected, plus)),
            node('div.main-col', node('section.panel', ...streets),
                ...model.pots.length || model.paid.length ? [node('section.panel',
                    node('header', node('h2', 'Pots, and what each player is due')), potTable(model))] : [],
                node('section.panel', node('header', node('h2', 'The text'),
                    node('span.soft.note', 'with the line numbers of the file')), textNode(model)))));
    };

    const hide = () => {
        opened++;
        street = -1;
        document.title = document.title.replace(/^Hand \S* · /, '');
    };
    /**
     * @param {Hands} hands
     * @param {number} hand
     * @param {string} place  where it is in its list
     */
    const show = async (hands, hand, place) => {
        const number = ++opened, it = handAt(hands, hand), { line, source } = it;
        street = -1;
        const bytes = await bytesOf(hands, hand), input = () => numbered(bytes, line);
        const [csv, streets, settle] = await Promise.all([report('settle', 'csv', input()),
            report('streets', 'csv', input()), report('settle', 'text', input())]);
        if (number !== opened) return;
        text = new TextDecoder().decode(bytes);
        const model = sheetOf(text, line, csv), now = new Date().toISOString();
        $('place').textContent = place;
        $('played').textContent = model.played;
        $('origin').textContent = `Hand ${it.number}, line ${counted(line)} of ${source.path}`;
        draw(hands, it, model, streets);
        $('body').append(node('details.panel.raw', node('summary', 'What the program printed'), node('pre', settle)));
        const origin = {
            file: `${source.path}, ${counted(source.file.size)} bytes`, fileSum: 'being computed',
            version: $('version').textContent, moduleSum: $('sum').textContent,
            date: `${now.slice(0, 10)} ${now.slice(11, 16)} UTC`
        };
        showSheet($('sheet'), model, origin);
        document.title = `Hand ${model.number} · ${document.title.replace(/^Hand \S* · /, '')}`;
        origin.fileSum = await sumOfFile(source.file).catch((error) => `not computed: ${error.message}`);
        if (number === opened) showSheet($('sheet'), model, origin);
    };
    return { show, hide, text: () => text };
};
