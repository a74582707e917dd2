// The text of a hand as seats, streets, and acts, for the picture of the table. The program judges the hand; nothing of
// this is proved. A line that isn't understood is left out of the story, and stays in the text.

import { cardsIn } from './cards.mjs';
import { units } from './reports.mjs';
import { stakesOf } from './texts.mjs';

/**
 * An act of a player: the number of its line, what they do, in words, and the amount. A card list is of cards that are
 * shown.
 * @typedef {{ line: number, name: string, kind: string, words: string, amount: bigint | null, isAllIn: boolean,
 *     cards: string[] }} Act
 *
 * The table after a street.
 * @typedef {{ stacks: Map<string, bigint>, bets: Map<string, bigint>, folded: Set<string>, pot: bigint,
 *     cards: Map<string, string[]>, isOpen: boolean }} After
 *
 * A street: its name, the word of reports for it, the board, and the cards of it that are new.
 * @typedef {{ name: string, key: string, board: string[], fresh: string[], acts: Act[], after: After }} Street
 */

const MARKER = /^\*\*\* (?:(FIRST|SECOND) )?(.*?) \*\*\*(.*)$/;
/**
 * The streets: how they are called on the page, and in reports.
 * @type {{ [marker: string]: [string, string] }}
 */
const STREETS = {
    'HOLE CARDS': ['Preflop', 'preflop'], FLOP: ['Flop', 'flop'], TURN: ['Turn', 'turn'], RIVER: ['River', 'river'],
    '3rd STREET': ['3rd street', '3rd'], '4th STREET': ['4th street', '4th'], '5th STREET': ['5th street', '5th'],
    '6th STREET': ['6th street', '6th'], 'DEALING HANDS': ['Before the draw', 'predraw'], DRAW: ['Draw', 'draw'],
    'FIRST DRAW': ['First draw', '1st-draw'], 'SECOND DRAW': ['Second draw', '2nd-draw'],
    'THIRD DRAW': ['Third draw', '3rd-draw'], 'SHOW DOWN': ['Showdown', 'showdown']
};
const AMOUNT = '[^0-9 ]?([0-9]+(?:\\.[0-9]+)?)';

/**
 * What is after a name: its form, the kind of act, and the words for it.
 * @type {[RegExp, string, string][]}
 */
const FORMS = [
    [new RegExp(`^: posts (the ante|small blind|big blind|small & big blinds|.*?) ${AMOUNT}`), 'posts', 'posts $1'],
    [new RegExp(`^: brings in for ()${AMOUNT}`), 'bets', 'brings in for'],
    [/^: folds()()/, 'folds', 'folds'], [/^: checks()()/, 'checks', 'checks'],
    [new RegExp(`^: calls ()${AMOUNT}`), 'calls', 'calls'], [new RegExp(`^: bets ()${AMOUNT}`), 'bets', 'bets'],
    [new RegExp(`^: raises \\S+ to ()${AMOUNT}`), 'raises', 'raises to'],
    [/^: (discards [0-9]+ cards?)()/, 'draws', '$1'], [/^: (stands pat)()/, 'draws', '$1'],
    [/^: shows()()/, 'shows', 'shows'], [/^: (doesn't show hand|mucks hand)()/, 'mucks', '$1'],
    [new RegExp(`^ collected ()${AMOUNT}`), 'collects', 'collects'],
    [new RegExp(`^ (cashed out the hand) for ${AMOUNT}`), 'cashes', 'cashes out for']
];

/** @param {Map<string, bigint>} map */
const copied = (map) => new Map(map);

/**
 * Replays a hand.
 * @param {string} text
 * @param {number} first  the number of its first line
 * @param {boolean} isMoney
 */
export const replay = (text, first, isMoney) => {
    const lines = text.split('\n').map((it) => it.replace(/\r$/, ''));
    const unit = (/** @type {string} */ it) => !isMoney ? units(it.replace(/\..*$/, ''))
        : units(it.includes('.') ? it : `${it}.00`);
    /** @type {{ seat: number, name: string, had: bigint }[]} */
    const seats = [];
    /** @type {Map<string, bigint>} */
    const stacks = new Map();
    /** @type {Map<string, bigint>} */
    const bets = new Map();
    /** @type {Map<string, string[]>} */
    const cards = new Map();
    const folded = new Set(), { stakes } = stakesOf(lines[0]);
    let pot = 0n, isOpen = false, isDealt = false;
    /** @type {Street[]} */
    const streets = [];
    const begin = (/** @type {string} */ name, /** @type {string} */ key, /** @type {string[]} */ board,
        /** @type {string[]} */ fresh) => streets.push({ name, key, board, fresh, acts: [],
        after: { stacks, bets, folded, pot, cards, isOpen } });
    const close = () => {
        if (!streets.length) return;
        streets[streets.length - 1].after = { stacks: copied(stacks), bets: copied(bets), folded: new Set(folded), pot,
            cards: new Map(cards), isOpen };
    };
    const put = (/** @type {string} */ name, /** @type {bigint} */ amount, /** @type {bigint} */ live) => {
        stacks.set(name, (stacks.get(name) || 0n) - amount);
        bets.set(name, (bets.get(name) || 0n) + live);
        pot += amount;
    };
    begin('Preflop', 'preflop', [], []);

    /** Puts in what an act costs, and returns whether it is an act of money. */
    const pay = (/** @type {string} */ kind, /** @type {string} */ what, /** @type {string} */ name,
        /** @type {bigint} */ amount) => {
        if (kind === 'posts') {
            const big = what === 'small & big blinds' ? unit(stakes.split('/')[1] || '0') : amount;
            put(name, amount, what === 'the ante' ? 0n : big < amount ? big : amount);
        } else if (kind === 'calls' || kind === 'bets') put(name, amount, amount);
        else if (kind === 'raises') put(name, amount - (bets.get(name) || 0n), amount - (bets.get(name) || 0n));
    };
    for (const [at, line] of lines.entries()) {
        const marker = MARKER.exec(line);
        if (marker && marker[2] === 'SUMMARY') break;
        const street = marker && (STREETS[`${marker[1]} ${marker[2]}`] || STREETS[marker[2]]);
        if (marker && street) {
            const [name, key] = street, isFirst = !isDealt, all = cardsIn(marker[3]);
            isDealt = true;
            if (isFirst) {
                Object.assign(streets[0], { name, key });
                continue;
            }
            close();
            bets.clear();
            const isTwice = marker[1] && !STREETS[`${marker[1]} ${marker[2]}`];
            const board = all.length ? all : streets[streets.length - 1].board;
            begin(isTwice ? `${marker[1] === 'FIRST' ? 'First' : 'Second'} ${name.toLowerCase()}` : name,
                isTwice && marker[1] === 'SECOND' ? '' : key, board,
                cardsIn(marker[3].slice(marker[3].lastIndexOf('[')) || ''));
            continue;
        }
        const seat = !isDealt && /^Seat ([0-9]+): (.*) \([^0-9 ]?([0-9.]+) in chips/.exec(line);
        if (seat) {
            seats.push({ seat: Number(seat[1]), name: seat[2], had: unit(seat[3]) });
            stacks.set(seat[2], unit(seat[3]));
            continue;
        }
        const dealt = /^Dealt to (.*?) (\[.*)$/.exec(line);
        if (dealt) {
            cards.set(dealt[1], cardsIn(dealt[2]));
            continue;
        }
        const { acts } = streets[streets.length - 1];
        const back = new RegExp(`^Uncalled bet \\(${AMOUNT}\\) returned to (.*)$`).exec(line);
        if (back && stacks.has(back[2])) {
            put(back[2], -unit(back[1]), -unit(back[1]));
            acts.push({ line: first + at, name: back[2], kind: 'back', words: 'gets back', amount: unit(back[1]),
                isAllIn: false, cards: [] });
            continue;
        }
        // a name may begin with another name
        const who = seats.filter(({ name }) => line.startsWith(`${name}:`) || line.startsWith(`${name} `))
            .sort((a, b) => b.name.length - a.name.length)[0];
        if (!who) continue;
        const { name } = who, rest = line.slice(name.length);
        for (const [form, kind, words] of FORMS) {
            const it = form.exec(rest);
            if (!it) continue;
            const amount = it[2] ? unit(it[2]) : null, isAllIn = / and is all-in\s*$/.test(rest);
            if (amount !== null) pay(kind, it[1], name, amount);
            if (kind === 'folds') folded.add(name);
            if (isAllIn) isOpen = true;
            const shown = kind === 'shows' || kind === 'folds' ? cardsIn((/\[(.*?)\]/.exec(rest) || ['', ''])[1]) : [];
            if (shown.length) cards.set(name, shown);
            acts.push({ line: first + at, name, kind, words: words.replace('$1', it[1]), amount, isAllIn,
                cards: shown });
            break;
        }
    }
    close();
    return { seats, streets, cards, folded };
};

/** @typedef {ReturnType<typeof replay>} Replay */

/**
 * Returns acts with folds in a row as one: "tom, ann, and lee fold".
 * @param {Act[]} acts
 */
export const together = (acts) => acts.reduce((all, act) => {
    const last = all[all.length - 1];
    if (last && act.kind === 'folds' && last.act.kind === 'folds' && !act.cards.length) last.names.push(act.name);
    else all.push({ act, names: [act.name] });
    return all;
}, /** @type {{ act: Act, names: string[] }[]} */ ([]));
