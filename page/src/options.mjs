// The filters over the hands of a player: the value of each hand, and the options.

import { leadOptions } from './ahead.mjs';
import { dayNames, dayOf, sessions, timeOf } from './clock.mjs';
import { SHOWDOWN, SHOWN } from './part.mjs';
import { allInOf, NO_ROW } from './played.mjs';
import { POSITIONS, POSITION_WORDS } from './positions.mjs';
import { byKey } from './sums.mjs';
import { gameText, momentText, monthText, stakesText } from './words.mjs';

/** @typedef {import('./hands.mjs').Hands} Hands */
/** @typedef {import('./played.mjs').Played} Played */

/**
 * An option of a filter: what the state has of it, its text, and the codes of the hands that it leaves.
 * @typedef {{ value: string, text: string, codes: number[] }} Option
 *
 * A filter over some hands: its values, for each hand the code of its value, and its options. An option can leave hands
 * of several values, as a month has several days.
 * @typedef {{ name: string, values: (string | number)[], codes: Uint32Array, options: Option[] }} Coded
 */

const DAY = 86400;

/**
 * Returns for each hand the code of its value, and the values by their codes.
 * @param {number} count
 * @param {(at: number) => string | number} valueOf
 */
const coded = (count, valueOf) => {
    const codes = new Uint32Array(count), values = /** @type {(string | number)[]} */ ([]), byValue = new Map();
    for (let at = 0; at < count; at++) {
        const value = valueOf(at);
        let code = byValue.get(value);
        if (code === undefined) byValue.set(value, code = values.push(value) - 1);
        codes[at] = code;
    }
    return { codes, values };
};

/**
 * Returns one option for each value, sorted by their texts, or in the order of some values.
 * @param {(string | number)[]} values
 * @param {(value: any) => string} textOf
 * @param {(string | number)[]} [order]
 * @returns {Option[]}
 */
const optionsOf = (values, textOf, order) => {
    const all = values.map((value, code) => ({ value: String(value) || 'none', text: textOf(value), codes: [code] }));
    if (!order) return all.sort((a, b) => byKey(a.text, b.text));
    const places = new Map(order.map((value, at) => [value, at]));
    const placeOf = (/** @type {Option} */ { codes: [code] }) => {
        const place = places.get(values[code]);
        return place === undefined ? -1 : place;
    };
    return all.sort((a, b) => placeOf(a) - placeOf(b));
};

/**
 * Returns the codes of the days of a span, both ends included. An end that is left out is open.
 * @param {(string | number)[]} days  as 2026-03-02
 * @param {string} span  as 2026-03-02..2026-03-09
 */
export const daysOf = (days, span) => {
    const [from, to] = span.split('..');
    return days.flatMap((day, code) => day && (!from || day >= from) && (!to || day <= to) ? [code] : []);
};

/** The last days before the last hand, and the months, the last one first. */
const datesOf = (/** @type {(string | number)[]} */ values) => {
    const days = values.map(String), dated = days.filter(Boolean).sort(), months = new Map();
    days.forEach((day, code) => {
        if (day) months.set(day.slice(0, 7), [...months.get(day.slice(0, 7)) || [], code]);
    });
    const last = dated.length ? Date.parse(dated[dated.length - 1]) / 1000 : 0;
    const lastDays = [7, 30].map((count) => ({
        value: `last ${count}`, text: `last ${count} days`, codes: daysOf(days, `${dayOf(last - (count - 1) * DAY)}..`)
    }));
    const byMonth = [...months].sort((a, b) => a[0] < b[0] ? 1 : -1)
        .map(([month, codes]) => ({ value: month, text: monthText(month), codes }));
    const without = days.indexOf('');
    return [...dated.length ? lastDays : [], ...byMonth,
        ...without < 0 ? [] : [{ value: 'none', text: 'no date', codes: [without] }]];
};

/** A street, any street, or none. */
const streetsOf = (/** @type {(string | number)[]} */ values) => {
    const streets = optionsOf(values, (it) => it || 'none'), some = streets.filter(({ value }) => value !== 'none');
    return [...some.length > 1 ? [{ value: 'any', text: 'any street', codes: some.flatMap((it) => it.codes) }] : [],
        ...streets];
};

/**
 * Returns what makes each filter over some hands, because to make all of them takes long.
 * @param {Hands} hands
 * @param {Played[]} entries  in order
 * @returns {(() => Coded)[]}
 */
export const filterMakers = (hands, entries) => {
    const { columns, texts } = hands, { clock, first, position, flags, marks, ahead } = columns;
    const { length } = entries, handOf = (/** @type {number} */ at) => entries[at].hand;
    const make = (/** @type {string} */ name, /** @type {(at: number) => string | number} */ valueOf,
        /** @type {(values: (string | number)[]) => Option[]} */ options) => () => {
        const { codes, values } = coded(length, valueOf);
        return { name, codes, values, options: options(values) };
    };
    const byText = (/** @type {string} */ name, /** @type {(text: string) => string} */ textOf) => () => {
        const column = /** @type {any} */ (columns)[name];
        const { codes, values } = coded(length, (at) => column[handOf(at)]);
        const words = values.map((it) => texts[Number(it)]);
        return { name, codes, values: words, options: optionsOf(words, textOf) };
    };
    const isShown = (/** @type {number} */ at) => {
        const { hand, row } = entries[at];
        return row === NO_ROW ? (flags[hand] & SHOWDOWN) !== 0 : (marks[row] & SHOWN) !== 0;
    };
    const byDates = () => {
        const day = dayNames();
        return make('dates', (at) => day(clock[handOf(at)]), datesOf)();
    };
    const byStakes = () => {
        const stakes = byText('stakes', (it) => it)();
        const games = new Set(stakes.values.map((it) => String(it).replace(/ ?\S*$/, '')));
        for (const it of stakes.options) it.text = stakesText(String(stakes.values[it.codes[0]]), games.size > 1);
        return stakes;
    };
    const bySession = () => {
        const numbers = sessions(entries.map(({ hand }) => clock[hand])), begins = new Map();
        numbers.forEach((number, at) => { if (!begins.has(number)) begins.set(number, clock[handOf(at)]); });
        return make('session', (at) => numbers[at], (values) => optionsOf(values,
            (it) => it ? momentText(begins.get(it)) : 'no date', [...values].sort((a, b) => Number(b) - Number(a)))
            .map((it) => ({ ...it, value: it.value === '0' ? 'none' : timeOf(begins.get(Number(it.value))) })))();
    };
    const rows = (/** @type {number} */ at) => first[handOf(at) + 1] - first[handOf(at)];
    return [
        byDates, byStakes, byText('game', gameText),
        byText('table', (it) => it || 'no table'), byText('tournament', (it) => it || 'no tournament'),
        make('position', (at) => entries[at].row === NO_ROW ? '' : POSITIONS[position[entries[at].row]],
            (values) => optionsOf(values, (it) => it ? `${it}, ${POSITION_WORDS[it]}` : 'none', POSITIONS)),
        make('players', rows, (values) => optionsOf(values, String)), bySession,
        make('all-in', (at) => texts[allInOf(hands, entries[at])], streetsOf),
        make('ahead', (at) => entries[at].row === NO_ROW ? 0 : ahead[entries[at].row], leadOptions),
        make('showdown', (at) => isShown(at) ? 'yes' : 'no', (values) => optionsOf(values, String, ['yes', 'no']))
    ];
};

/**
 * Returns the filters over some hands.
 * @param {Hands} hands
 * @param {Played[]} entries  in order
 */
export const codedFilters = (hands, entries) => filterMakers(hands, entries).map((make) => make());
