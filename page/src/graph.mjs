// The graph on the page. A pointer or the arrow keys read it point by point; dragging zooms, and a double click shows
// all again.

import { nearest } from './axis.mjs';
import { dayOf } from './clock.mjs';
import { node, save } from './dom.mjs';
import { amountText, drawPlot } from './picture.mjs';
import { counted, many } from './progress.mjs';
import { LINES } from './series.mjs';
import { dayText, momentText } from './words.mjs';

/** @typedef {import('./picture.mjs').Drawn} Drawn */

const LEAST_WIDTH = 120, LEAST_ZOOM = 12, DAY = 86400;

/** @type {{ [key: string]: number }} */
const STEPS = { ArrowLeft: -1, ArrowRight: 1, PageUp: -50, PageDown: 50 };

/**
 * Returns which point is read: the hand, the day, or the session.
 * @param {Drawn} drawn
 * @param {number} at
 */
const pointText = ({ series: { x, hands }, clocks, by }, at) => by === 'hand'
    ? [`Hand ${counted(x[at])}`, momentText(clocks[at])]
    : [by === 'day' ? dayText(x[at] * DAY) : `Session ${counted(x[at])}`,
        [by === 'day' ? '' : dayText(clocks[at]), many(hands[at], 'hand')].filter(Boolean).join(', ')];

/**
 * Makes a graph in a place. `open` opens the hand at a place of those that are drawn.
 * @param {HTMLElement} place
 * @param {HTMLElement} legend
 * @param {(at: number) => void} open
 */
export const makeGraph = (place, legend, open) => {
    /** @type {Drawn | null} */
    let drawn = null;
    /** @type {ReturnType<typeof drawPlot> | null} */
    let picture = null;
    /** @type {[number, number] | null} */
    let zoom = null;
    let at = -1, width = 0, pressed = -1;

    const hint = () => {
        const bars = drawn && drawn.by !== 'hand' ? `Bars: won or lost each ${drawn.by}. ` : '';
        legend.replaceChildren(node('span', `${bars}The shaded distance between won and all-in adjusted is luck.`));
    };
    /** Writes the values of a point below the graph, and marks the point. */
    const read = (/** @type {number} */ index) => {
        if (!drawn || !picture) return;
        at = index;
        const it = drawn, { series: { x, lines } } = it, [name, when] = pointText(it, index);
        const value = (/** @type {string} */ word, /** @type {number} */ amount) =>
            node('span', `${word} `, node('b', amountText(amount, it)));
        legend.replaceChildren(node('b', name), node('span', when),
            ...LINES.map((word, key) => value(word, lines[key][index])).filter((line, key) => it.isShown[key]),
            value('luck', lines[0][index] - lines[1][index]));
        const [line, dot] = /** @type {any} */ (picture.cross).children, across = String(picture.toX(x[index]));
        for (const end of ['x1', 'x2']) line.setAttribute(end, across);
        dot.setAttribute('cx', across);
        dot.setAttribute('cy', String(picture.toY(lines[0][index])));
        picture.cross.setAttribute('visibility', 'visible');
    };

    const draw = () => {
        place.replaceChildren();
        picture = null;
        width = place.clientWidth;
        if (!drawn || !drawn.series.count || width < LEAST_WIDTH) {
            legend.replaceChildren(...drawn && !drawn.series.count ? [node('span', 'No hand to draw.')] : []);
            return;
        }
        const { x, count } = drawn.series, first = drawn.by === 'day' ? x[0] : 0;
        picture = drawPlot(drawn, zoom || [first, Math.max(x[count - 1], first + 1)], width, place.clientHeight);
        place.append(picture.svg);
        if (at >= 0) read(at);
        else hint();
    };

    const pixelOf = (/** @type {MouseEvent} */ event) => event.clientX - place.getBoundingClientRect().left;
    place.onpointermove = (event) => {
        if (drawn && picture) read(nearest(drawn.series.x, picture.fromX(pixelOf(event))));
    };
    place.onpointerleave = () => {
        at = -1;
        if (picture) picture.cross.setAttribute('visibility', 'hidden');
        hint();
    };
    place.onpointerdown = (event) => { pressed = event.pointerType === 'touch' ? -1 : pixelOf(event); };
    place.onpointerup = (event) => {
        const [from, to] = [pressed, pixelOf(event)].sort((a, b) => a - b),
                     isDragged = pressed >= 0 && to - from > LEAST_ZOOM;
        pressed = -1;
        if (!isDragged || !picture) return;
        zoom = [picture.fromX(from), picture.fromX(to)];
        draw();
    };
    place.ondblclick = () => {
        zoom = null;
        draw();
    };
    place.onkeydown = (event) => {
        const step = STEPS[event.key];
        if (!drawn || !drawn.series.count) return;
        if (event.key === 'Enter' && at >= 0 && drawn.by === 'hand') open(drawn.series.at[at]);
        if (!step) return;
        event.preventDefault();
        const { count } = drawn.series;
        read(Math.max(0, Math.min(count - 1, (at < 0 ? count - 1 : at) + step)));
    };
    new ResizeObserver(() => { if (place.clientWidth !== width) draw(); }).observe(place);

    return (/** @type {Drawn} */ next) => {
        if (!drawn || next.by !== drawn.by || next.series.count !== drawn.series.count) {
            zoom = null;
            at = -1;
        }
        drawn = next;
        draw();
    };
};

const KEPT = ['fill', 'stroke', 'stroke-width', 'stroke-dasharray', 'stroke-linejoin', 'font', 'text-anchor'];

/**
 * Hands a graph to the user as a picture that stands alone: 1,200 by 500, with its colors and a ground. A place of the
 * page must show it, because the browser computes its styles.
 * @param {HTMLElement} place
 * @param {Drawn} drawn
 * @param {string} player
 */
export const saveGraph = (place, drawn, player) => {
    const { x, count } = drawn.series, first = drawn.by === 'day' ? x[0] : 0;
    const { svg } = drawPlot(drawn, [first, Math.max(x[count - 1], first + 1)], 1200, 500);
    svg.querySelectorAll('.mark').forEach((it) => it.remove());
    place.append(svg);
    for (const it of svg.querySelectorAll('*')) {
        const style = getComputedStyle(it);
        for (const key of KEPT) if (!it.closest('clipPath')) it.setAttribute(key, style.getPropertyValue(key));
        const font = style.getPropertyValue('font-family');
        if (it.nodeName === 'text') it.setAttribute('style', `font: ${style.fontWeight} 12px ${font}`);
        it.removeAttribute('font');
    }
    const ground = document.createElementNS('http://www.w3.org/2000/svg', 'rect');
    for (const [key, value] of Object.entries({ width: '100%', height: '100%',
        fill: getComputedStyle(document.documentElement).getPropertyValue('--paper').trim() }))
        ground.setAttribute(key, value);
    svg.prepend(ground);
    svg.remove();
    const last = dayOf(drawn.clocks[count - 1]), name = `winnings-${player}${last && `-${last}`}.svg`;
    save(name.replace(/[\\/:*?"<>|]/g, '_'), 'image/svg+xml',
        [`<?xml version="1.0" encoding="UTF-8"?>\n${new XMLSerializer().serializeToString(svg)}\n`]);
};
