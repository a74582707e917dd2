// The dozen all-ins in which the cards did most for or against the chosen player.

import { unpacked } from './cards.mjs';
import { button, head, node } from './dom.mjs';
import { UNKNOWN } from './part.mjs';
import { inLine } from './play.mjs';
import { handAt } from './played.mjs';
import { allInOf } from './reports.mjs';
import { isMoneyOf } from './figures.mjs';
import { showTable } from './table.mjs';
import { sumText, toneOf, unitText } from './words.mjs';

/** @typedef {import('./choice.mjs').Choice} Choice */
/** @typedef {import('./played.mjs').Played} Played */

const DOZEN = 12;

/**
 * Returns the hands with most luck, good or bad.
 * @param {Choice} choice
 */
export const luckiest = ({ hands, played }) => {
    const { net, even, marks } = hands.columns;
    /** @param {Played} it */
    const size = ({ row }) => {
        const luck = marks[row] & UNKNOWN ? 0n : net[row] - even[row];
        return luck < 0n ? -luck : luck;
    };
    /** @type {{ it: Played, luck: bigint }[]} */
    const most = [];
    for (const it of played) {
        const luck = size(it);
        if (luck === 0n || most.length === DOZEN && luck <= most[DOZEN - 1].luck) continue;
        const place = most.findIndex((other) => other.luck < luck);
        most.splice(place < 0 ? most.length : place, 0, { it, luck });
        most.length = Math.min(most.length, DOZEN);
    }
    return most.map(({ it }) => it);
};

/**
 * Returns the equities of a player in the pots of an all-in: 71.4% in one pot, and 24.7% · 30.4% in two.
 * @param {string} audit
 * @param {string} player
 */
export const equityText = (audit, player) => {
    const allIn = allInOf(audit), parts = allIn && allIn.parts.get(player) || [];
    return parts.map(({ part }) => `${(Number(part) * 100).toFixed(1)}%`).join(' · ');
};

/**
 * Makes the table of all-ins. `report` returns the program's report of a hand.
 * @param {HTMLElement} place
 * @param {{ report: (hand: number, mode: string) => Promise<string>, open: (hand: number, among: number[]) => void }}
 *     ask
 */
export const makeLuck = (place, { report, open }) => {
    let shown = 0;
    return async (/** @type {Choice} */ choice) => {
        const number = ++shown, { hands, player, unit } = choice, most = luckiest(choice), { columns } = hands;
        if (!most.length) {
            place.replaceChildren(node('p.empty', 'No counted all-in.'));
            return;
        }
        const isMoney = isMoneyOf(choice), say = (/** @type {bigint} */ sum) => sumText(sum, { isMoney, plus: true });
        const among = most.map(({ hand }) => hand), word = unitText(unit);
        const rows = most.map(({ hand, row }) => {
            const cards = unpacked(columns.cards[row]), { net, even } = columns, luck = net[row] - even[row];
            const go = button('', () => open(hand, among), 'button.link');
            go.append(...cards.length ? inLine(cards) : [handAt(hands, hand).number]);
            go.title = `Hand ${handAt(hands, hand).number}`;
            return node('tr', head('row', 'th.cards', go), node('td.cards', ...inLine(unpacked(columns.board[hand]))),
                node('td.hide-s.soft', hands.texts[columns.street[hand]]), node('td.hide-s.number', '…'),
                node('td.number', say(net[row])), node(`td.number.${toneOf(luck)}`, say(luck)));
        });
        const heads = [['Cards', ''], ['Board', ''], ['All-in', '.hide-s'], ['Equity', '.hide-s.number'],
            [`Won, ${word}`, '.number'], [`Luck, ${word}`, '.number']];
        showTable(place, /** @type {HTMLTableElement} */ (node('table.t',
            node('thead', node('tr', ...heads.map(([text, classes]) => head('col', `th${classes}`, text)))),
            node('tbody', ...rows))));
        for (const [at, { hand }] of most.entries()) {
            let text = '';
            try {
                text = equityText(await report(hand, 'audit'), player);
            } catch (error) {
                text = error instanceof Error ? error.message : String(error);
            }
            if (number !== shown) return;
            rows[at].children[3].textContent = text;
        }
    };
};
