// The line for a spot or for ranges, answered as it is typed, and the grid from which a range of it is chosen.

import { readAnswers } from './answers.mjs';
import { node } from './dom.mjs';
import { showGrid } from './grid.mjs';
import { makeHeatView } from './heatview.mjs';
import { latest } from './latest.mjs';
import { counted } from './progress.mjs';
import { countOf, readRange, withCells, writtenRange } from './range.mjs';
import { answerNode, askedNode, control } from './spotbars.mjs';
import { readTyped, writtenLine } from './typed.mjs';
import { faultNode, refusalSentence, understoodNode } from './understood.mjs';
import { countAbove } from './widecount.mjs';

const PAUSE = 250, HANDS = 1326;
const EXAMPLES = [
    'AsAh vs KsKh', 'TT+ vs AK', 'JhJc vs AsKs on 2s 9s Jd 5h', 'QQ+ vs 99-66', 'plo AsKsQdJd vs AhAd7c6c on Ts9s2h'
];
const WEIGHTS = [100, 75, 50, 25];

/**
 * Makes the spot panel. `report(mode, input)` runs the program, and ends runs that are still going. `workers` counts
 * ranges above the limit, and the equities of the grid; without it, neither is offered.
 * @param {{ field: HTMLInputElement, answer: HTMLElement, grid: HTMLElement, whose: HTMLSelectElement, clear:
 *     HTMLElement, chosen: HTMLElement, report: (mode: string, input: Uint8Array) => Promise<string>,
 *     workers?: Promise<import('./counting.mjs').Workers> }} panel
 */
export const makeSpots = ({ field, answer, grid, whose, clear, chosen, report, workers }) => {
    let typed = readTyped(field.value);
    const head = node('div'), body = node('div'), weights = /** @type {HTMLSelectElement} */ (node('select'));
    const range = () => typed.game === 'holdem' && typed.sides[Number(whose.value)]?.range || '';

    const examples = () => node('p.row', 'For example:', ...EXAMPLES.map((line) => control(line, () => {
        field.value = line;
        shift();
        field.focus();
        now();
    })));
    const ask = latest({
        clear: () => {
            // the grid below stays where it is under a pointer that drags
            body.style.minHeight = typed.line ? `${body.offsetHeight}px` : '';
            if (typed.line) body.replaceChildren('counting …');
            else body.replaceChildren(...typed.isEmpty ? [examples()] : []);
        },
        show: (/** @type {Node[]} */ nodes) => {
            body.style.minHeight = '';
            body.replaceChildren(...nodes);
        },
        fail: (error) => {
            body.style.minHeight = '';
            body.replaceChildren(error.message === 'stopped' ? 'Stopped.' : error.message);
        }
    });
    /**
     * Answers what was understood.
     * @param {import('./typed.mjs').Typed} it
     */
    const reply = (it) => async () => {
        const text = await report(it.mode, new TextEncoder().encode(`${it.line}\n`)), [read] = readAnswers(text);
        if (!read) throw new Error('the program doesn\'t answer');
        if (read.answer)
            return [
                answerNode(read.answer, it.sides),
                askedNode('The program was asked', it.line, 'The program’s report', text)
            ];
        if (read.refusal === 'above') return countAbove(it, await workers, body);
        return [faultNode({ word: '', says: refusalSentence(read.refusal) })];
    };

    /** Shows what is typed: what was understood, what is wrong with it, and the range that is chosen. */
    const shift = () => {
        typed = readTyped(field.value);
        head.replaceChildren(
            ...typed.sides.length && !typed.isEmpty ? [understoodNode(typed)] : [],
            ...typed.fault ? [faultNode(typed.fault)] : []);
        const it = readRange(range()), count = countOf(it);
        chosen.textContent = `${counted(count)} of ${counted(HANDS)} hands, ${(100 * count / HANDS).toFixed(1)}%${
            it.others.length ? `, and ${it.others.join(', ')}` : ''}`;
        mark();
    };
    /** @type {ReturnType<typeof setTimeout> | undefined} */
    let soon;
    const now = async () => {
        clearTimeout(soon);
        shift();
        await ask(typed.line ? reply(typed) : null);
        heat.refresh();
    };
    // the old answer goes with the first key, and the new one is counted after a pause
    const later = () => {
        clearTimeout(soon);
        if (workers) workers.then((pool) => pool.stop());
        ask(typed.line ? () => new Promise(() => {}) : null);
        soon = setTimeout(now, PAUSE);
    };
    /**
     * Puts a range into the line, in the words of the program.
     * @param {string} text
     */
    const put = (text) => {
        const isHoldem = typed.game === 'holdem', at = Number(whose.value);
        const sides = isHoldem ? typed.sides.map((side) => ({ ...side, cards: null })) : [];
        while (sides.length < Math.max(2, at + 1)) sides.push({ cards: null, range: '' });
        sides[at].range = text;
        field.value = writtenLine({
            game: 'holdem', mode: 'ranges', sides, board: isHoldem ? typed.board : [], dead: isHoldem ? typed.dead : []
        });
        shift();
        later();
    };
    /** Returns the ranges of the other players, with the board and the dead cards, or a sentence. */
    const against = () => {
        const { sides, board, dead, game, fault } = typed, at = Number(whose.value);
        const others = sides.filter((side, index) => index !== at && side.range).map((side) => side.range);
        const isSound = !fault || /no hand yet/.test(fault.says);
        if (others.length > 2) return 'Equities are against one other player, or against two.';
        return game === 'holdem' && others.length && isSound ? { sides: others, board, dead }
            : 'Write a range for another player, such as vs TT+, AK.';
    };

    for (const percent of WEIGHTS) {
        const option = /** @type {HTMLOptionElement} */ (node('option', `${percent}%`));
        option.value = String(percent);
        weights.append(option);
    }
    answer.replaceChildren(head, body);
    // a browser that can't run the program says so elsewhere
    if (workers) workers.catch(() => {});
    const heat = makeHeatView({ workers, against, mark: () => mark() });
    const mark = showGrid(grid, {
        chosen: () => readRange(range()),
        weight: () => Number(weights.value),
        heat: heat.cells,
        choose: (names, percent) => put(writtenRange(withCells(readRange(range()), names, percent)))
    });
    grid.before(node('p.row', node('label', 'Weight ', weights), ...workers ? heat.nodes : []));
    field.oninput = () => {
        shift();
        later();
    };
    whose.onchange = () => {
        shift();
        heat.refresh();
    };
    clear.onclick = () => put('');
    shift();
    ask(null);
    return now;
};
