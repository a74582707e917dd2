// The clock of a hand and what follows from it: days, months, and sessions.
// A clock is a number of seconds. Its days and hours are those that the text shows, whatever the zone of the browser.

const MINUTE = 60, DAY = 86400;

/** A longer gap between two hands of a player starts a new session, as in the archive of examples/. */
export const GAP = 30 * MINUTE;

const DATED = /([12][0-9]{3})\/([01][0-9])\/([0-3][0-9]) (?:- )?([0-9]{1,2}):([0-5][0-9]):([0-5][0-9])/;
const EASTERN = /\[([12][0-9]{3})\/([01][0-9])\/([0-3][0-9]) (?:- )?([0-9]{1,2}):([0-5][0-9]):([0-5][0-9]) ET\]/;

/**
 * Returns the clock of a header: Eastern time if it is there in brackets, otherwise the first clock.
 * NaN if the header has no clock, or a date that no calendar has.
 * @param {string} header
 * @returns {number}
 */
export const readClock = (header) => {
    const found = EASTERN.exec(header) || DATED.exec(header);
    if (!found) return NaN;
    const [year, month, day, hour, minute, second] = found.slice(1).map(Number);
    const clock = Date.UTC(year, month - 1, day, hour, minute, second) / 1000;
    return hour < 24 && dayOf(clock) === `${found[1]}-${found[2]}-${found[3]}` ? clock : NaN;
};

/**
 * Returns the day as 2026-03-02, or an empty text for NaN.
 * @param {number} clock
 */
export const dayOf = (clock) => Number.isNaN(clock) ? '' : new Date(clock * 1000).toISOString().slice(0, 10);

/**
 * Returns day and time as 2026-03-02 21:15:52, or an empty text for NaN.
 * @param {number} clock
 */
export const timeOf = (clock) =>
    Number.isNaN(clock) ? '' : new Date(clock * 1000).toISOString().slice(0, 19).replace('T', ' ');

/**
 * Returns a function that names days, or with a smaller length months, and remembers the name of each, because
 * thousands of hands share a day.
 * @param {number} [length]
 * @returns {(clock: number) => string}
 */
export const dayNames = (length = 10) => {
    /** @type {Map<number, string>} */
    const names = new Map();
    return (clock) => {
        const day = Math.floor(clock / DAY);
        let name = names.get(day);
        if (name === undefined) names.set(day, name = dayOf(clock).slice(0, length));
        return name;
    };
};

/**
 * Returns the number of the session of each hand, from 1, for rising clocks. A hand without a clock has 0.
 * @param {Iterable<number>} clocks
 */
export const sessions = (clocks) => {
    const numbers = [];
    let last = -Infinity, session = 0;
    for (const clock of clocks) {
        if (Number.isNaN(clock)) {
            numbers.push(0);
            continue;
        }
        if (clock - last > GAP) session++;
        last = clock;
        numbers.push(session);
    }
    return numbers;
};
