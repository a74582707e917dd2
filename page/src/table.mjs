// Tables. The first column names a row, and the others have numbers, unless the table says otherwise.

import { button, node } from './dom.mjs';

/**
 * Makes a table. A cell is a text or a node.
 * @param {string[]} heads
 * @param {(string | Node)[][]} rows
 * @param {{ left?: boolean, sorted?: { column: number, isRising: boolean }, sort?: (column: number) => void }} options
 */
export const table = (heads, rows, { left = false, sorted, sort }) => {
    const head = node('tr'), body = node('tbody');
    heads.forEach((text, column) => {
        const cell = node('th', sort ? button(text, () => sort(column)) : text);
        cell.setAttribute('scope', 'col');
        if (sorted && sorted.column === column)
            cell.setAttribute('aria-sort', sorted.isRising ? 'ascending' : 'descending');
        head.append(cell);
    });
    for (const row of rows) {
        const line = node('tr');
        row.forEach((cell, column) => line.append(node(column && !left ? 'td.number' : 'td', cell)));
        body.append(line);
    }
    const it = node(left ? 'table.left' : 'table', node('thead', head), body);
    return /** @type {HTMLTableElement} */ (it);
};

/**
 * Shows a table in a place. If the focus was on the head of a column, it stays on the head of that column.
 * @param {HTMLElement} place
 * @param {HTMLTableElement} it
 */
export const showTable = (place, it) => {
    const focused = document.activeElement && document.activeElement.closest('th');
    const column = focused && place.contains(focused)
        ? [.../** @type {Element} */ (focused.parentElement).children].indexOf(focused)
        : -1;
    place.replaceChildren(it);
    const again =
        column >= 0 ? /** @type {HTMLElement} */ (it.tHead && it.tHead.rows[0].cells[column].firstChild) : null;
    if (again) again.focus();
};
