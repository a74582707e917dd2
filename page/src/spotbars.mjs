// The answer to a spot or to ranges: a bar and a percentage for each player, with the counts behind them.

import { percentOf } from './answers.mjs';
import { button, node } from './dom.mjs';
import { grouped } from './progress.mjs';
import { sideNode } from './understood.mjs';

/** @typedef {import('./answers.mjs').Answer} Answer */

/**
 * Makes a button of the spots.
 * @param {string} text
 * @param {() => void} onclick
 */
export const control = (text, onclick) => {
    const it = button(text, onclick);
    it.className = 'btn';
    return it;
};

const whole = (/** @type {bigint} */ count) => grouped(String(count));

/**
 * Makes a bar: what a player wins alone, and what they have of ties.
 * @param {number} part
 * @param {number} won
 */
const barNode = (part, won) => {
    const bar = node('div.spotbar'), win = node('i'), tie = node('i.tie');
    win.style.width = `${100 * won}%`;
    tie.style.width = `${100 * Math.max(0, part - won)}%`;
    bar.append(win, tie);
    return bar;
};

/**
 * Makes the answer.
 * @param {Answer} answer
 * @param {import('./sides.mjs').Side[]} sides
 */
export const answerNode = (answer, sides) => {
    const it = node('div.spotanswer');
    answer.hands.forEach((hand, at) => {
        const { text, part } = percentOf(answer, at), isOneSided = hand.sides.length === 1;
        const won = isOneSided ? Number(hand.sides[0].win) / Number(answer.total) : part;
        it.append(node(
            'div.spothand', node('p.spotshare', sideNode(sides[at]), node('span', text)), barNode(part, won),
            ...hand.sides.map(({ side, win, tie, lose }) => node('p.spotcounts',
                ...isOneSided ? [] : [node('span', side)], node('span', `wins ${whole(win)}`),
                node('span', `ties ${whole(tie)}`), node('span', `loses ${whole(lose)}`),
                node('span', `of ${whole(answer.total)}`)))));
    });
    const isRange = answer.choices > 0n, isWeighted = isRange && answer.weight !== answer.choices;
    it.append(node('p.spotcounts', isRange
        ? `${whole(answer.choices)} ${answer.choices === 1n ? 'choice' : 'choices'} of hands${isWeighted
            ? ` with a weight of ${whole(answer.weight)}` : ''}, ${whole(answer.runouts)} ${
            answer.runouts === 1n ? 'runout' : 'runouts'} each. Every one is counted.`
        : `${whole(answer.runouts)} ${answer.runouts === 1n ? 'runout' : 'runouts'}. Every one is counted.`));
    return it;
};

/**
 * Puts a text on the clipboard, or, where the browser doesn't allow that, selects it.
 * @param {string} text
 * @param {HTMLElement} place
 */
const copy = async (text, place) => {
    try {
        await navigator.clipboard.writeText(text);
        return true;
    } catch {
        getSelection()?.selectAllChildren(place);
        return false;
    }
};

/**
 * Makes the line that the program was asked, and its report, to keep.
 * @param {string} says
 * @param {string} line
 * @param {string} title
 * @param {string} report
 */
export const askedNode = (says, line, title, report) => {
    const code = node('code', line), details = node('details', node('summary', title), node('pre', report));
    const keep = control('Copy', async () => {
        keep.textContent = await copy(line, code) ? 'Copied' : 'Selected';
        setTimeout(() => { keep.textContent = 'Copy'; }, 2000);
    });
    return node('div.spotasked', node('p', says, ' ', code, ' ', keep), details);
};
