// First sight: a picture of what one gets, which the program counts from the example.

import { $, node } from './dom.mjs';
import { figure } from './figures.mjs';
import { namesOf, tallyOf } from './names.mjs';
import { handAt, inOrder, playedBy } from './played.mjs';
import { SHOWN } from './part.mjs';
import { drawPlot } from './picture.mjs';
import { inLine } from './play.mjs';
import { unpacked } from './cards.mjs';
import { many } from './progress.mjs';
import { seriesOf } from './series.mjs';
import { oddsOf } from './odds.mjs';
import { trackNode } from './story.mjs';
import { sumOf } from './sums.mjs';
import { signOf, sumText, toneOf } from './words.mjs';

/** @typedef {import('./hands.mjs').Hands} Hands */

const WIDTH = 560, HEIGHT = 190, EARLY = ['preflop', 'flop'];

/**
 * The streets, with the places of their cards on the board.
 * @type {{ [street: string]: [number, number] }}
 */
const BOARD = { preflop: [0, 0], flop: [0, 3], turn: [3, 4], river: [4, 5] };

/**
 * Shows the picture. `report` returns the program's report of a hand of the example.
 * @param {Hands} hands
 * @param {(hand: number, mode: string) => Promise<string>} report
 */
export const showPicture = async (hands, report) => {
    const order = inOrder(hands), tally = tallyOf(hands, order), unit = 'money USD', { columns } = hands;
    // the player of whom the example has most
    const [{ name }] = namesOf(hands, tally, tally.size).sort((a, b) => b.count - a.count);
    const played = playedBy(hands, order, name, unit), sum = sumOf(hands, played), luck = sum.net - sum.even;
    const form = { isMoney: true, sign: signOf(unit) }, say = (/** @type {bigint} */ it) => sumText(it, form);
    $('shot-figures').replaceChildren(figure('Won', say(sum.net), { tone: toneOf(sum.net) }),
        figure('All-in adjusted', say(sum.even), { tone: toneOf(sum.even) }),
        figure('Luck', sumText(luck, { ...form, plus: true }), { tone: toneOf(luck) }));
    const series = seriesOf(hands, played, 'hand'), isShown = [true, true, false, false];
    const { svg } = drawPlot({ series, clocks: new Float64Array(series.count), by: 'hand', isShown, sign: '$',
        digits: 2, isSmall: true }, [0, series.count], WIDTH, HEIGHT);
    $('shot-graph').replaceChildren(svg);
    $('shot-caption').textContent = `An example: ${many(sum.hands, 'hand')} of ${name}. ` +
        'The shaded distance between won (the line) and all-in adjusted (dashed) is luck.';
    $('shot').hidden = false;

    // the all-in with most luck, good or bad, of those with two streets or more to come
    const size = (/** @type {import('./played.mjs').Played} */ { row }) =>
        Math.abs(Number(columns.net[row] - columns.even[row]));
    const [best] = played.filter(({ hand, row }) => EARLY.includes(hands.texts[columns.street[hand]])
        && columns.marks[row] & SHOWN).sort((one, other) => size(other) - size(one));
    if (!best) return;
    const odds = oddsOf(await report(best.hand, 'streets')), board = unpacked(columns.board[best.hand]);
    const rows = odds.streets.map(({ street, pots }) => {
        const row = pots[0].rows.find((it) => it.name === name) || pots[0].rows[0];
        const [from, to] = BOARD[street] || [0, 0];
        return node('li', node('span.who', street[0].toUpperCase() + street.slice(1)),
            node('span.cards', ...inLine(board.slice(from, to))), node('span.bar', trackNode(row.part, 0, true)),
            node('span.pct', `${(row.part * 100).toFixed(1)} %`), node('span.delta'));
    });
    $('shot-hand').replaceChildren(node('p', 'A hand: ', ...inLine(unpacked(columns.cards[best.row])),
        ` all-in for ${say(columns.pot[best.hand])}, street by street`), node('ul.bars', ...rows));
    $('shot-hand').title = `Hand ${handAt(hands, best.hand).number}`;
};
