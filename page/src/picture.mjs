// The picture of a graph: lines of what was won, and the area between won and all-in adjusted, which is luck.

import { placeOf, thin, ticks } from './axis.mjs';
import { dayOf } from './clock.mjs';
import { shape } from './dom.mjs';
import { grouped } from './progress.mjs';
import { LINES } from './series.mjs';
import { dayText, MINUS, monthText } from './words.mjs';

/**
 * What a graph shows: its points, the clock of each, what x counts, which lines are drawn, and the sign and the
 * decimals of amounts. A small one has neither axes nor names.
 * @typedef {{ series: import('./series.mjs').Series, clocks: Float64Array, by: string, isShown: boolean[],
 *     sign: string, digits: number, isSmall?: boolean }} Drawn
 */

const TOP = 12, BARS = 44, NAMES = 196, WIDE = 560, LINE = 34, DAY = 86400, MONTH_ROOM = 76;

let pictures = 0;

/**
 * Returns an amount of the graph as a text.
 * @param {number} value
 * @param {{ sign: string, digits: number }} form
 */
export const amountText = (value, { sign, digits }) => {
    const size = Math.abs(value).toFixed(digits);
    return `${value < 0 && Number(size) ? MINUS : ''}${sign}${grouped(size)}`;
};

/**
 * Returns the places of the points at which a new month begins, or a new day if all points are in two months.
 * @param {Float64Array} clocks
 * @param {number} from
 * @param {number} to
 */
export const datesAt = (clocks, from, to) => {
    const first = clocks[from], last = clocks[to - 1], isLong = last - first > 62 * DAY, dates = [];
    let before = '', number = NaN;
    for (let at = from; at < to; at++) {
        // thousands of hands share a day, and to write one takes long
        if (Math.floor(clocks[at] / DAY) === number) continue;
        number = Math.floor(clocks[at] / DAY);
        const day = dayOf(clocks[at]), here = isLong ? day.slice(0, 7) : day;
        const text = isLong ? monthText(here) : dayText(clocks[at]).slice(0, -5);
        if (here && here !== before) dates.push({ at, text });
        before = here || before;
    }
    return dates;
};

/** Moves names apart so that none lies over another. */
const spread = (/** @type {{ y: number }[]} */ ends, /** @type {number} */ bottom) => {
    ends.sort((a, b) => a.y - b.y);
    for (let at = 1; at < ends.length; at++) ends[at].y = Math.max(ends[at].y, ends[at - 1].y + LINE);
    for (let at = ends.length - 1, most = bottom; at >= 0; at--, most -= LINE) ends[at].y = Math.min(ends[at].y, most);
};

/**
 * Draws a graph. Returns the picture, its mark for a point, and what turns values into places and back.
 * @param {Drawn} drawn
 * @param {[number, number]} bounds  the least and the greatest x
 * @param {number} width
 * @param {number} height
 */
export const drawPlot = (drawn, [from, to], width, height) => {
    const { series: { x, lines }, clocks, by, isShown, isSmall } = drawn;
    const some = LINES.map((line, key) => key).filter((key) => isShown[key]);
    const first = placeOf(x, from), end = placeOf(x, to + 1e-9), hasNames = !isSmall && width >= WIDE;
    const left = isSmall ? 4 : 58, right = hasNames ? NAMES : 8, bars = by === 'hand' || isSmall ? 0 : BARS;
    const across = width - left - right, down = height - TOP - (isSmall ? 8 : 26) - bars;
    let low = 0, high = 0;
    for (const key of some) for (let at = first; at < end; at++) {
        low = Math.min(low, lines[key][at]);
        high = Math.max(high, lines[key][at]);
    }
    const room = (high - low) * 0.04 || 1;
    low -= room;
    high += room;
    const toX = (/** @type {number} */ value) => left + (value - from) / (to - from) * across;
    const fromX = (/** @type {number} */ place) => from + (place - left) / across * (to - from);
    const toY = (/** @type {number} */ value) => TOP + (high - value) / (high - low) * down;
    const svg = shape('svg',
        { class: 'plot', viewBox: `0 0 ${width} ${height}`, width, height, 'aria-hidden': 'true' });

    for (const value of isSmall ? [0] : ticks(low, high, height > 280 ? 6 : 4)) {
        const y = toY(value);
        svg.append(shape('line', { class: value ? 'grid' : 'zero', x1: left, x2: left + across, y1: y, y2: y }));
        if (!isSmall) svg.append(shape('text', { x: left - 10, y: y + 4, 'text-anchor': 'end' },
            amountText(value, { sign: '', digits: Number.isInteger(value) ? 0 : 2 })));
    }
    let free = -Infinity;
    for (const { at, text } of isSmall ? [] : datesAt(clocks, first, end)) {
        const place = toX(x[at]);
        if (place < free || place > left + across - 20) continue;
        free = place + MONTH_ROOM;
        svg.append(shape('line', { class: 'grid', x1: place, x2: place, y1: TOP, y2: TOP + down + bars }),
            shape('text', { x: Math.min(place, left + across - 56), y: height - 6 }, text));
    }
    // a line begins at 0, before the first hand or session
    const start = by !== 'day' && first === 0 && from === 0 ? [`${toX(0).toFixed(1)} ${toY(0).toFixed(1)}`] : [];
    const points = (/** @type {number} */ key) => [...start, ...thin(first, end, (at) => Math.round(toX(x[at])),
        lines[key]).map((at) => `${toX(x[at]).toFixed(1)} ${toY(lines[key][at]).toFixed(1)}`)];
    const paths = LINES.map((line, key) => isShown[key] ? points(key) : []), [won, adjusted] = paths;
    if (isShown[0] && isShown[1] && end - first > 1) {
        const id = `luck${pictures++}`, edge = adjusted.join('L'), begin = adjusted[0].split(' ')[0],
              last = adjusted[adjusted.length - 1].split(' ')[0];
        const area = { d: `M${won.join('L')}L${[...adjusted].reverse().join('L')}Z` };
        [['up', TOP], ['down', TOP + down]].forEach(([name, y]) => {
            svg.append(shape('clipPath', { id: `${id}${name}` },
                shape('path', { d: `M${edge}L${last} ${y}L${begin} ${y}Z` })),
            shape('path', { ...area, class: name, 'clip-path': `url(#${id}${name})` }));
        });
    }
    for (const key of [...some].reverse()) {
        const path = paths[key];
        if (path.length)
            svg.append(shape('path', { class: `line${key}`, d: `M${path.join('L')}${path.length > 1 ? '' : 'h3'}` }));
    }
    if (bars) {
        const steps = Array.from({ length: end - first }, (it, at) =>
            lines[0][first + at] - (first + at ? lines[0][first + at - 1] : 0));
        const most = Math.max(...steps.map(Math.abs), 1e-9), zero = TOP + down + bars / 2 + 4;
        const wide = Math.max(2, Math.min(18, across / (to - from + 1) - 3));
        steps.forEach((step, at) => {
            const size = Math.abs(step) / most * (bars / 2 - 3);
            svg.append(shape('rect', { class: step < 0 ? 'bar-down' : 'bar-up', width: wide, rx: 1,
                x: toX(x[first + at]) - wide / 2, y: step < 0 ? zero : zero - size, height: Math.max(1, size) }));
        });
    }
    if (hasNames && end > first) {
        const ends = some.map((key) => ({ key, y: toY(lines[key][end - 1]) }));
        spread(ends, height - 24);
        for (const { key, y } of ends) {
            const place = { class: `end line${key}`, x: left + across + 12 };
            svg.append(shape('text', { ...place, y: y + 1 }, LINES[key][0].toUpperCase() + LINES[key].slice(1)),
                shape('text', { ...place, y: y + 16 }, amountText(lines[key][end - 1], drawn)));
        }
    }
    const cross = shape('g', { class: 'mark', visibility: 'hidden' },
        shape('line', { class: 'cross', y1: TOP, y2: TOP + down }), shape('circle', { class: 'dot', r: 5 }));
    svg.append(cross);
    return { svg, cross, toX, fromX, toY };
};
