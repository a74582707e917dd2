// The equities of each street of an all-in, from the program's report `streets`, and a street as a spot to ask.

import { records } from './reports.mjs';

/**
 * What a player may expect of a pot: the part of it, as the program prints it, and how often each side wins, ties, and
 * loses.
 * @typedef {{ name: string, part: number, sides: { side: string, win: number, tie: number, lose: number }[] }} Odds
 *
 * A street, how many runouts there are, and the odds in each pot.
 * @typedef {{ street: string, runouts: number, pots: { number: number, rows: Odds[] }[] }} StreetOdds
 */

/**
 * Returns the streets of a report of `streets` of one hand, what its pots hold, and what each player expects of all.
 * @param {string} csv
 */
export const oddsOf = (csv) => {
    /** @type {StreetOdds[]} */
    const streets = [];
    /** @type {Map<string, string>} */
    const expected = new Map();
    /** @type {string[]} */
    const grosses = [];
    let game = '';
    /**
     * @param {number} number
     * @param {string} name
     */
    const rowOf = (number, name) => {
        const { pots } = streets[streets.length - 1];
        let pot = pots.find((it) => it.number === number);
        if (!pot) pots.push(pot = { number, rows: [] });
        let row = pot.rows.find((it) => it.name === name);
        if (!row) pot.rows.push(row = { name, part: 0, sides: [] });
        return row;
    };
    for (const words of records(csv)) {
        const [kind, first, second, third] = words, name = words[12];
        if (kind === 'hand') game = words[3];
        else if ((kind === 'all-in' || kind === 'street') && second === 'runouts')
            streets.push({ street: first, runouts: Number(third), pots: [] });
        else if (kind === 'pot' && second === 'gross') grosses[Number(first)] = third;
        else if (kind === 'pot' && third === 'win' && streets.length) {
            rowOf(Number(first), name).sides.push({ side: second, win: Number(words[4]), tie: Number(words[7]),
                lose: Number(words[10]) });
        } else if (kind === 'pot' && second === 'ev' && streets.length) rowOf(Number(first), name).part = Number(third);
        else if (kind === 'expect') expected.set(name, first);
    }
    return { game, streets, grosses, expected };
};

/**
 * Returns by how much a part changed since the street before, in percentage points, or null.
 * @param {StreetOdds | undefined} before
 * @param {number} pot
 * @param {Odds} row
 */
export const changeOf = (before, pot, row) => {
    const old = before && before.pots.find(({ number }) => number === pot)?.rows.find(({ name }) => name === row.name);
    return old ? Math.round((row.part - old.part) * 1000) / 10 : null;
};

/**
 * How many cards each player of a stud game has on a street.
 * @type {{ [street: string]: number }}
 */
const STUD = { '3rd': 3, '4th': 4, '5th': 5, '6th': 6 };
const BOARDED = ['holdem', 'omaha', 'omaha8'], STUDS = ['stud', 'stud8', 'razz'];

/**
 * Returns a street of an all-in as a line to ask, with the known cards of those who folded as dead ones. Returns an
 * empty text for a draw game, and where cards aren't known.
 * @param {string} game  as reports name it
 * @param {StreetOdds} odds
 * @param {{ board: string[], cards: Map<string, string[]>, folded: Set<string> }} hand
 */
export const spotLine = (game, { street, runouts, pots }, { board, cards, folded }) => {
    const names = [...new Set(pots.flatMap(({ rows }) => rows.map(({ name }) => name)))], isStud = STUDS.includes(game);
    if (runouts < 2 || !isStud && !BOARDED.includes(game) || isStud && !STUD[street]) return '';
    const hands = names.map((name) => (cards.get(name) || []).slice(0, isStud ? STUD[street] : undefined));
    if (hands.some((it) => !it.length)) return '';
    const dead = [...cards].filter(([name]) => folded.has(name)).flatMap(([, it]) => it);
    return `${game} ${hands.map((it) => it.join(' ')).join(' - ')}${board.length ? ` -- ${board.join(' ')}` : ''}`
        + `${dead.length ? ` / ${dead.join(' ')}` : ''}`;
};
