// The filters as lists of choices. A filter shows its name alone until it is set, and then its value. Each option has
// the number of hands that it would leave.

import { having, node } from './dom.mjs';
import { chosenText } from './filters.mjs';
import { counted } from './progress.mjs';

/** @typedef {import('./choice.mjs').Choice} Choice */
/** @typedef {{ [filter: string]: string }} Chosen */

/** A longer list of options is cut, because a browser takes long to open it. */
const MOST = 500;

const SPAN = 'span';

/** @param {string} name */
const title = (name) => name[0].toUpperCase() + name.slice(1);

/**
 * Makes the two fields of a span of dates.
 * @param {string} span
 * @param {(span: string) => void} choose
 */
const spanFields = (span, choose) => {
    const [from, to] = span.split('..'), fields = [from, to].map((value, at) => {
        const it = /** @type {HTMLInputElement} */ (having(node('input'), {
            type: 'date', 'aria-label': at ? 'Last day' : 'First day', name: at ? 'to' : 'from'
        }));
        it.value = value;
        return it;
    });
    for (const it of fields) it.onchange = () => choose(fields.map(({ value }) => value).join('..'));
    return node('span.span', ...fields);
};

/**
 * Shows the filters of which there is a choice.
 * @param {HTMLElement} place
 * @param {Choice} choice
 * @param {Chosen} chosen
 * @param {(chosen: Chosen) => void} choose
 */
export const showFilters = (place, { filters, counts }, chosen, choose) => {
    const active = document.activeElement;
    const focused = active instanceof HTMLSelectElement || active instanceof HTMLInputElement ? active.name : '';
    const bars = filters.flatMap((filter, at) => {
        const { name, options } = filter, value = chosen[name], isSet = value !== undefined;
        if (options.length < 2 && !isSet) return [];
        const put = (/** @type {string} */ next) => {
            const rest = { ...chosen };
            delete rest[name];
            choose(next ? { ...rest, [name]: next } : rest);
        };
        const list = /** @type {HTMLSelectElement} */ (having(node('select'), { 'aria-label': title(name) }));
        list.name = name;
        const some = options.map((option, code) => ({ ...option, count: counts[at][code] }))
            .filter((option) => option.count || value === option.value);
        list.append(new Option('any', ''), ...some.slice(0, MOST).map((option) =>
            new Option(`${option.text} (${counted(option.count)})`, option.value)));
        if (some.length > MOST)
            list.append(having(new Option(`${counted(some.length - MOST)} more: set another filter first`, ''),
                { disabled: '' }));
        const isSpan = name === 'dates' && isSet && value.includes('..');
        if (name === 'dates') list.append(new Option('from … to …', SPAN));
        list.value = isSpan ? SPAN : isSet ? value : '';
        list.onchange = () => put(list.value === SPAN ? '..' : list.value);
        const text = isSet ? chosenText(filter, value) : '';
        return [node(isSet ? 'label.pick.set' : 'label.pick', node('span', title(name)), node('b', text), list),
            ...isSpan ? [spanFields(value, put)] : []];
    });
    place.replaceChildren(...bars);
    const again = focused && place.querySelector(`[name="${focused}"]`);
    if (again instanceof HTMLElement) again.focus();
};
