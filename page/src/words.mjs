// Amounts, dates, stakes, and games as the page writes them.

import { dayOf, timeOf } from './clock.mjs';
import { grouped } from './progress.mjs';

export const MINUS = '\u2212';

const MONTHS = ['Jan', 'Feb', 'Mar', 'Apr', 'May', 'Jun', 'Jul', 'Aug', 'Sep', 'Oct', 'Nov', 'Dec'];

/** @param {string} month  as 2026-03 */
export const monthText = (month) => `${MONTHS[Number(month.slice(5, 7)) - 1]} ${month.slice(0, 4)}`;

/**
 * Returns a day as 2 Mar 2026, or "no date".
 * @param {number} clock
 */
export const dayText = (clock) => {
    const day = dayOf(clock);
    return day ? `${Number(day.slice(8))} ${monthText(day)}` : 'no date';
};

/**
 * Returns the hour as 21:15, or an empty text.
 * @param {number} clock
 */
export const hourText = (clock) => timeOf(clock).slice(11, 16);

/** @param {number} clock */
export const momentText = (clock) => `${dayText(clock)} ${hourText(clock)}`.trim();

const SIGNS = new Map([['USD', '$'], ['EUR', '€'], ['GBP', '£']]);

/**
 * Returns the sign of the currency of a unit, as in `unitOf`; an empty text for chips and other currencies.
 * @param {string} unit
 */
export const signOf = (unit) => SIGNS.get(unit.replace(/^money ?/, '')) || '';

/**
 * Returns a unit as a heading has it: $, CHF, or chips.
 * @param {string} unit
 */
export const unitText = (unit) => signOf(unit) || unit.replace(/^money ?/, '');

/**
 * Returns a sum with its sign, thousands in groups, and the currency: −$1,234.50, or +325 for chips.
 * @param {bigint} sum  in hundredths, or in chips
 * @param {{ isMoney: boolean, sign?: string, plus?: boolean }} form
 */
export const sumText = (sum, { isMoney, sign = '', plus = false }) => {
    const size = sum < 0n ? -sum : sum, front = sum < 0n ? MINUS : plus && sum > 0n ? '+' : '';
    const whole = grouped(String(isMoney ? size / 100n : size));
    return `${front}${sign}${whole}${isMoney ? `.${String(size % 100n).padStart(2, '0')}` : ''}`;
};

/**
 * Returns a ratio with some digits, and a minus sign.
 * @param {number} value
 * @param {number} [digits]
 */
export const ratioText = (value, digits = 1) => {
    const size = Math.abs(value).toFixed(digits);
    return `${value < 0 && Number(size) ? MINUS : ''}${grouped(size)}`;
};

/**
 * Returns the class of the color of a sum: gain, loss, or none.
 * @param {bigint | number} sum
 */
export const toneOf = (sum) => sum > 0 ? 'gain' : sum < 0 ? 'loss' : '';

/** @type {{ [game: string]: string }} */
const GAMES = {
    holdem: 'Hold\u2019em', omaha: 'Omaha', omaha8: 'Omaha Hi/Lo', stud: 'Stud', stud8: 'Stud Hi/Lo', razz: 'Razz',
    draw5: 'Five card draw', lowball27: '2-7 single draw', triple27: '2-7 triple draw'
};

/**
 * Returns a game as it is read: the word of the program, or the words of a rejected hand's header.
 * @param {string} game
 */
export const gameText = (game) => GAMES[game] || game || 'unknown game';

/**
 * Returns stakes as they are read: 0.50/1.00, or with the game before them.
 * @param {string} stakes  game, limit, and amounts
 * @param {boolean} [withGame]
 */
export const stakesText = (stakes, withGame = false) => {
    const [, front, amounts] = /^(.*?) ?(\S*\/\S*)$/.exec(stakes) || ['', stakes, ''];
    if (!withGame && amounts) return amounts;
    const [game, ...rest] = front.split(' ');
    return GAMES[game] ? [GAMES[game], ...rest, amounts].filter(Boolean).join(' ') : stakes || 'no stakes';
};
