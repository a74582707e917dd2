// What the rules give of each pot, and who is still to get or to give back what. Every figure is the program's.

import { grouped } from './progress.mjs';
import { units } from './reports.mjs';

/** @typedef {import('./reports.mjs').Settlement} Settlement */
/** @typedef {import('./reports.mjs').Pot} Pot */

const SIGNS = new Map([['USD', '$'], ['EUR', '€'], ['GBP', '£']]);

/**
 * Returns a function that writes an amount of a report with its currency: $12.50, -$12.50, or 325 for chips.
 * @param {string} unit  as in `unitOf`
 * @returns {(amount: string) => string}
 */
export const sayer = (unit) => {
    const currency = unit.startsWith('money ') ? unit.slice(6) : '', sign = SIGNS.get(currency) || '';
    return (amount) => {
        const isBelow = amount.startsWith('-'), size = isBelow ? amount.slice(1) : amount;
        const code = currency && !sign && size.includes('.') ? ` ${currency}` : '';
        return `${isBelow ? '-' : ''}${sign}${grouped(size)}${code}`;
    };
};

/**
 * Returns what a pot is called: pot, main pot, or side pot 1.
 * @param {Pot} pot
 * @param {number} count  how many pots the hand has
 */
export const potName = (pot, count) => count === 1 ? 'Pot'
    : pot.number === 0                             ? 'Main pot'
    : count === 2                                  ? 'Side pot'
                                                   : `Side pot ${pot.number}`;

/** @param {string[]} names */
const listed = (names) =>
    names.length < 2 ? names.join('') : `${names.slice(0, -1).join(', ')} and ${names[names.length - 1]}`;

const ELIGIBLE = 'A pot goes to the best hand of the players who are in it.';
const EQUAL = 'Equal hands share it in equal parts.';
const ODD = 'A unit that is left over goes to the first winner left of the button. ' +
    'In a stud game it goes to the winner with the highest card.';
const SIDES = 'The best high hand gets one half, rounded up, and the best low that qualifies the other half. ' +
    'If there is no low, the high hand gets all.';
const BOARDS = 'Each board decides one half of the pot. The first board\'s half is rounded up.';
const ALONE = 'A pot that only one player can win goes to that player.';
const UNSEEN = 'The text doesn\'t show the cards of every player in this pot, so nobody can say who had to win it.';
const UNFIT =
    'The pots that the text names aren\'t those that the bets make, so only the sums of the hand are checked.';

/**
 * Returns the rules by which a pot goes, and who wins what by them, each as a sentence.
 * @param {Pot} pot
 * @param {(amount: string) => string} say
 * @returns {{ rules: string[], winners: string[] }}
 */
export const rulesOf = (pot, say) => {
    if (pot.state === 'unseen') return { rules: [UNSEEN], winners: [] };
    if (pot.state === 'unfit') return { rules: [UNFIT], winners: [] };
    if (!pot.parts.length) return { rules: [ALONE], winners: [] };
    const rules = [ELIGIBLE], winners = [], boards = [...new Set(pot.parts.map((it) => it.board))],
          sides = [...new Set(pot.parts.map((it) => it.side))];
    if (boards.length > 1) rules.push(BOARDS);
    if (sides.length > 1) rules.push(SIDES);
    for (const board of boards) for (const side of sides) {
        const parts = pot.parts.filter((it) => it.board === board && it.side === side);
        if (!parts.length) continue;
        const where = [
            boards.length > 1 ? `${board === '1' ? 'first' : 'second'} board` : '', sides.length > 1 ? side : ''
        ].filter(Boolean).join(', ');
        const odd = parts.filter((it) => it.isOdd).map((it) => it.name);
        winners.push(`${where ? `${where[0].toUpperCase()}${where.slice(1)}: ` : 'The rules give: '}${
                         parts.map((it) => `${it.name} ${say(it.units)}`).join(', ')}` +
            `${odd.length ? `, with the odd unit for ${listed(odd)}` : ''}.`);
        if (parts.length > 1 && !rules.includes(EQUAL)) rules.push(EQUAL);
        if (odd.length && !rules.includes(ODD)) rules.push(ODD);
    }
    return { rules, winners };
};

/**
 * Returns the difference of a share, what was got less what is due, as the report writes amounts; empty if nobody knows
 * what is due.
 * @param {{ due: string | null, got: string }} share
 */
export const gapOf = ({ due, got }) => {
    if (due === null) return '';
    const gap = units(got) - units(due), size = String(gap < 0n ? -gap : gap);
    const text = got.includes('.') ? `${size.padStart(3, '0').slice(0, -2)}.${size.padStart(3, '0').slice(-2)}` : size;
    return `${gap < 0n ? '-' : gap > 0n ? '+' : ''}${text}`;
};

/**
 * Returns what is to be done about a hand's payments, in sentences. `isNeeded` says whether anybody is to get
 * something.
 * @param {Settlement} hand
 * @param {(amount: string) => string} say
 * @returns {{ isNeeded: boolean, sentences: string[] }}
 */
export const ordersOf = (hand, say) => {
    const isUneven = hand.pots.some((pot) => pot.shares.some(({ due, got }) => due !== null && due !== got));
    const nothing = (/** @type {string} */ why) =>
        ({ isNeeded: false, sentences: [`${why} Nothing needs to be settled.`] });
    if (!hand.pots.length) return { isNeeded: false, sentences: [] };
    if (hand.isAccepted && isUneven)
        return nothing('The payments differ from the rules by no more than the unit that sites round differently.');
    if (hand.settle.length) {
        return {
            isNeeded: true,
            sentences: hand.settle.map(({ name, amount }) => amount.startsWith('-')
                    ? `${name} is to give back ${say(amount.slice(1))}.`
                    : `${name} is to get ${say(amount)}.`)
        };
    }
    if (isUneven && hand.pots.every((pot) => pot.state === 'checked'))
        return nothing('The differences between the pots cancel out.');
    if (isUneven)
        return {
            isNeeded: false,
            sentences:
                ['Nobody can say who is to get what, because the cards of a player in some pot aren\'t in the text.']
        };
    if (hand.pots.every((pot) => pot.state === 'checked')) return nothing('Every pot was paid as the rules give it.');
    return { isNeeded: false, sentences: ['The sums add up. Who had to win every pot isn\'t known from the text.'] };
};
