// The opened hand: the way in, to the next one, and what is done with it.

import { $ } from './dom.mjs';
import { makeHand } from './hand.mjs';
import { EVERYBODY, handAt } from './played.mjs';
import { counted } from './progress.mjs';
import { bytesOf } from './source.mjs';
import { numbered } from './texts.mjs';

/**
 * Copies a text, also where a browser gives no clipboard to a page from the disk.
 * @param {string} text
 */
export const copyText = async (text) => {
    try {
        await navigator.clipboard.writeText(text);
    } catch (error) {
        const field = document.createElement('textarea');
        field.value = text;
        field.style.position = 'fixed';
        field.style.opacity = '0';
        document.body.append(field);
        field.select();
        document.execCommand('copy');
        field.remove();
    }
};

/**
 * Connects the view of a hand. Returns what opens a hand, and what reads one.
 * @param {() => import('./choice.mjs').Choice} choose
 * @param {{ report: import('./hand.mjs').Report, ask: (line: string) => void, views: () =>
 *     import('./views.mjs').Views, say: (text: string, isBad?: boolean) => void }} page
 */
export const connectHand = (choose, { report, ask, views, say }) => {
    /** The player whom the page is about, if they play in a hand, and otherwise whom cards are dealt to. */
    const heroOf = (/** @type {number} */ hand) => {
        const { hands, player, names } = choose(), { first, name } = hands.columns, seated = new Set();
        for (let row = first[hand]; row < first[hand + 1]; row++) seated.add(hands.texts[name[row]]);
        if (player !== EVERYBODY) return seated.has(player) ? player : '';
        const dealt = names.find((it) => it.dealt && seated.has(it.name));
        return dealt ? dealt.name : '';
    };
    const view = makeHand({ report, ask, heroOf });
    /** @type {Promise<void>} */
    let shown = Promise.resolve();
    const copy = async () => {
        if (!view.text()) return;
        await copyText(view.text().trimEnd() + '\n');
        say('The text is copied, without line numbers.');
    };
    $('close').onclick = () => views().go('hands');
    $('print').onclick = () => views().go('sheet');
    $('sheet-back').onclick = () => history.back();
    $('sheet-print').onclick = () => print();
    $('copy').onclick = copy;
    $('before').onclick = () => views().step(-1);
    $('after').onclick = () => views().step(1);
    return {
        copy,
        hide: view.hide,
        show: (/** @type {number} */ hand, /** @type {number} */ at, /** @type {number} */ count) => {
            $('before').disabled = at === 0;
            $('after').disabled = at === count - 1;
            shown = view.show(choose().hands, hand, count > 1 ? `${counted(at + 1)} of ${counted(count)}` : '')
                .catch((error) => {
                    views().go('hands');
                    say(error.message, true);
                });
        },
        open: (/** @type {number} */ hand, /** @type {number[] | undefined} */ among = undefined) => {
            views().open(among || choose().listed.map((it) => it.hand), hand);
            return shown;
        },
        textOf: async (/** @type {number} */ hand) => new TextDecoder().decode(await bytesOf(choose().hands, hand)),
        report: async (/** @type {number} */ hand, /** @type {string} */ mode) => {
            const { hands } = choose();
            return report(mode, 'csv', numbered(await bytesOf(hands, hand), handAt(hands, hand).line));
        }
    };
};
