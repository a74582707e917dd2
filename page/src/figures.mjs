// The figures of the chosen player, what they leave out, and the sums of groups.

import { shownTable } from './books.mjs';
import { causeOf } from './causes.mjs';
import { sessions } from './clock.mjs';
import { button, head, node, save } from './dom.mjs';
import { CASHED, LIMIT } from './part.mjs';
import { POSITIONS } from './positions.mjs';
import { counted, many } from './progress.mjs';
import { written } from './reports.mjs';
import { buyInsOf, byKey, hundredsOf } from './sums.mjs';
import { showTable } from './table.mjs';
import { dayText, gameText, monthText, ratioText, signOf, stakesText, sumText, toneOf, unitText } from './words.mjs';

/** @typedef {import('./sums.mjs').Sum} Sum */
/** @typedef {import('./choice.mjs').Choice} Choice */

/** @param {Choice} choice */
export const isMoneyOf = ({ unit }) => unit.startsWith('money');

/**
 * What a hundred hands are counted in: big blinds, in fixed limit big bets, or both.
 * @param {Choice} choice
 */
export const bigWord = ({ hands, played }) => {
    const { flags, big } = hands.columns;
    let hasBlinds = false, hasBets = false;
    for (const { hand } of played) {
        if (big[hand] > 0) flags[hand] & LIMIT ? hasBets = true : hasBlinds = true;
        if (hasBlinds && hasBets) break;
    }
    return hasBlinds && hasBets ? 'bb or big bets/100' : hasBets ? 'big bets/100' : 'bb/100';
};

/**
 * Returns what the figures leave out, as a sentence, or an empty text.
 * @param {Choice} choice
 */
export const leftSentence = ({ hands, left, player }) => {
    if (!left.length) return '';
    const { columns, texts } = hands, counts = new Map(), plain = (/** @type {string} */ it) => it;
    for (const { hand } of left) {
        const isCashed = (columns.flags[hand] & CASHED) !== 0;
        const { short } = causeOf(texts[columns.cause[hand]], { say: plain, seat: plain, isCashed });
        counts.set(short, (counts.get(short) || 0) + 1);
    }
    const causes = [...counts].sort((a, b) => b[1] - a[1]).map(([short, count]) => `${counted(count)} ${short}`);
    return `Without ${many(left.length, 'rejected hand')} of ${player}: ${causes.join(', ')}.`;
};

/**
 * Returns a figure: its name, its value, and what stands below.
 * @param {string} name
 * @param {string} value
 * @param {{ tone?: string, isFirst?: boolean, more?: string }} form
 */
export const figure = (name, value, { tone = '', isFirst = false, more = '' }) =>
    node(isFirst ? 'div.fig.first' : 'div.fig', node('dt', name), node(tone ? `dd.${tone}` : 'dd', value),
        ...more ? [node('dd.more', more)] : []);

/** @param {ReturnType<typeof buyInsOf>} buyIns */
const buyInFigure = ({ tournaments, sums, unknown }) => figure('Buy-ins, without prizes',
    sums.map(([sign, sum]) => sumText(sum, { isMoney: true, sign })).join(' + ') || (unknown ? 'not known' : '0'),
    { more: `${many(tournaments, 'tournament')}${unknown && sums.length ? `, ${counted(unknown)} not known` : ''}` });

/**
 * @param {HTMLElement} place
 * @param {Choice} choice
 */
export const showFigures = (place, choice) => {
    const { hands, played, unit, sum } = choice, per = hundredsOf(sum), word = bigWord(choice);
    const isMoney = isMoneyOf(choice), form = { isMoney, sign: signOf(unit) }, luck = sum.net - sum.even;
    const say = (/** @type {bigint} */ it, plus = false) => sumText(it, { ...form, plus });
    const hundred = (/** @type {number | undefined} */ it) => it === undefined ? '' : `${ratioText(it)} ${word}`;
    const count = sessions(played.map(({ hand }) => hands.columns.clock[hand]))
        .reduce((most, it) => Math.max(most, it), 0);
    const buyIns = buyInsOf(hands, played);
    const first = (/** @type {bigint} */ it, /** @type {string} */ more) =>
        ({ tone: toneOf(it), isFirst: true, more });
    place.replaceChildren(
        figure('Won', say(sum.net), first(sum.net, hundred(per?.net))),
        figure('All-in adjusted', say(sum.even), first(sum.even, hundred(per?.even))),
        figure('Luck at all-ins', say(luck, true), first(luck,
            sum.unknown ? `not known of ${many(sum.unknown, 'hand')}` : 'won less adjusted')),
        figure('Hands', counted(sum.hands), { more: many(count, 'session') }),
        buyIns.tournaments && !isMoney ? buyInFigure(buyIns)
            : figure('Rake paid', say(BigInt(Math.round(sum.rake))), { more: hundred(per?.rake) }),
        figure('Showdown winnings', say(sum.shown), { tone: toneOf(sum.shown), more: 'blue line' }),
        figure('Non-showdown winnings', say(sum.net - sum.shown), { tone: toneOf(sum.net - sum.shown),
            more: 'red line' }));
};

/** @typedef {{ group: string, sortBy: number, isRising: boolean }} Grouped */

/** The columns of the sums after the group. Some are hidden on a phone. */
export const HEADS = ['hands', 'won', 'adjusted', 'luck', 'bb/100', 'adj. bb/100'];

/**
 * @param {Sum} sum
 * @returns {(bigint | number)[]}
 */
const valuesOf = (sum) => {
    const per = hundredsOf(sum);
    return [sum.hands, sum.net, sum.even, sum.net - sum.even, per ? per.net : NaN, per ? per.even : NaN];
};

/**
 * Returns the sums by a group, sorted by a column.
 * @param {Choice} choice
 * @param {Grouped} state
 */
const groupsOf = ({ groups }, { group, sortBy, isRising }) => {
    const all = [...groups].map(([key, sum]) => ({ key, sum, values: valuesOf(sum) }));
    const byName = (/** @type {string} */ a, /** @type {string} */ b) => group === 'position'
        ? POSITIONS.indexOf(a) - POSITIONS.indexOf(b) : byKey(a, b);
    return all.sort((a, b) => {
        const one = a.values[sortBy - 1], other = b.values[sortBy - 1];
        return (sortBy === 0 ? byName(a.key, b.key) : one < other ? -1 : one > other ? 1 : 0) * (isRising ? 1 : -1);
    });
};

/**
 * @param {string} group
 * @param {string} key
 */
export const groupText = (group, key) => {
    if (/^no\b/.test(key)) return key;
    if (group === 'month') return monthText(key);
    if (group === 'day') return dayText(Date.parse(key) / 1000);
    if (group === 'session') return `${dayText(Date.parse(key.slice(0, 10)) / 1000)} ${key.slice(11)}`;
    return group === 'stakes' ? stakesText(key, true) : group === 'game' ? gameText(key) : key;
};

/**
 * Shows the sums by a group. A click on a group shows its hands alone.
 * @param {HTMLElement} place
 * @param {Choice} choice
 * @param {Grouped} state
 * @param {{ sort: (column: number) => void, pick: (key: string) => void }} ask
 */
export const showSums = (place, choice, state, { sort, pick }) => {
    const { unit } = choice, isMoney = isMoneyOf(choice), groups = groupsOf(choice, state), word = bigWord(choice);
    const phone = ['', '', '.hide-s', '', '.hide-s', '.hide-s'];
    const cells = (/** @type {Sum} */ sum) => valuesOf(sum).map((value, at) => {
        const tone = at === 1 || at === 3 ? toneOf(value) : '';
        const text = at === 0 ? counted(Number(value)) : at === 4 || at === 5 ? isNaN(Number(value)) ? '' :
            ratioText(Number(value)) : sumText(BigInt(value), { isMoney, plus: at === 3 });
        return node(`td.number${phone[at]}${tone && `.${tone}`}`, text);
    });
    const names = HEADS.map((it, at) => at > 0 && at < 4 ? `${it}, ${unitText(unit)}` : it.replace('bb/100', word));
    const top = [state.group, ...names].map((text, at) => {
        const it = head('col', at ? `th.number${phone[at - 1]}` : 'th',
            button(text.startsWith('bb') ? text : text[0].toUpperCase() + text.slice(1), () => sort(at)));
        if (at === state.sortBy) it.setAttribute('aria-sort', state.isRising ? 'ascending' : 'descending');
        return it;
    });
    const rows = groups.map(({ key, sum }) => {
        const name = button(groupText(state.group, key), () => pick(key), 'button.link');
        name.title = 'Show these hands alone';
        return node('tr', head('row', 'th', name), ...cells(sum));
    });
    const foot = node('tfoot', node('tr', head('row', 'th', 'All'), ...cells(choice.sum)));
    showTable(place, /** @type {HTMLTableElement} */ (node('table.t', node('thead', node('tr', ...top)),
        node('tbody', ...rows), ...rows.length > 1 ? [foot] : [])));
};

/** What a table for a spreadsheet has of a group beside the columns that are shown. */
const MORE = ['showdown winnings', 'non-showdown winnings', 'luck unknown', 'rake paid'];

/**
 * @param {Choice} choice
 * @param {Grouped} state
 */
export const saveSums = (choice, state) => {
    const isMoney = isMoneyOf(choice), textOf = (/** @type {bigint | number} */ it) =>
        typeof it === 'bigint' ? written(it, isMoney) : Number.isInteger(it) ? String(it) : isNaN(it) ? ''
            : it.toFixed(2);
    const rows = groupsOf(choice, state).map(({ key, sum }) => [key, ...valuesOf(sum).map(textOf),
        written(sum.shown, isMoney), written(sum.net - sum.shown, isMoney), String(sum.unknown),
        written(BigInt(Math.round(sum.rake)), isMoney)]);
    const text = shownTable([state.group, ...HEADS, ...MORE], rows);
    save(`sums-${choice.player}-${state.group}.csv`.replace(/[\\/:*?"<>|]/g, '_'), 'text/csv', [text]);
};
