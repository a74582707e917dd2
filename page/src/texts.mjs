// What the text of a hand says beside the rules, which the program skips: when and where it was played, for what
// stakes, who was dealt cards, and who was in a showdown. What can't be read is empty. Nothing of this is proved.

import { readClock } from './clock.mjs';

const HEADER = /^(\uFEFF)?PokerStars [A-Za-z ]*(Hand|Game) #[0-9]/;
const GAMES = ['Hold\'em', 'Omaha Hi/Lo', 'Omaha', '7 Card Stud Hi/Lo', '7 Card Stud', 'Razz',
    'Single Draw 2-7 Lowball', 'Triple Draw 2-7 Lowball', '5 Card Draw'];
/** The games as reports name them. */
const WORDS = new Map([['Hold\'em', 'holdem'], ['Omaha', 'omaha'], ['Omaha Hi/Lo', 'omaha8'], ['7 Card Stud', 'stud'],
    ['7 Card Stud Hi/Lo', 'stud8'], ['Razz', 'razz'], ['5 Card Draw', 'draw5'],
    ['Single Draw 2-7 Lowball', 'lowball27'], ['Triple Draw 2-7 Lowball', 'triple27']]);
const LIMITS = ['No Limit', 'Pot Limit', 'Limit'];
const AMOUNTS = /(?:\(|, )([$€£]?)([0-9]+(?:\.[0-9][0-9])?)\/[$€£]?([0-9]+(?:\.[0-9][0-9])?)(?: ([A-Z]{3})\))?/;
/** The number of a tournament, and its buy-in as the header has it. */
const TOURNAMENT = /Tournament #([0-9]+)(?:, ([$€£]?[0-9][0-9.+$€£]*(?: [A-Z]{3})?|Freeroll)\b)?/;
const SIGNS = new Map([['$', 'USD'], ['€', 'EUR'], ['£', 'GBP']]);
const NEWLINE = 10, LETTER_P = 0x50, LETTER_O = 0x6f, MARK = 0xef;
// a header is recognized by its beginning
const HEADER_BYTES = 200;

/**
 * Where a hand is in some bytes: its first line, from 1, and its first byte and the one after its last.
 * @typedef {{ line: number, start: number, end: number }} Place
 */

/** @param {string} line */
export const isHeader = (line) => HEADER.test(line);

/**
 * Whether a hand begins at a place that a line begins at.
 * @param {Uint8Array} bytes
 * @param {number} at
 */
export const beginsHand = (bytes, at) => {
    const first = bytes[at] === MARK ? at + 3 : at;
    return bytes[first] === LETTER_P && bytes[first + 1] === LETTER_O
        && HEADER.test(new TextDecoder().decode(bytes.subarray(at, at + HEADER_BYTES)).split('\n')[0]);
};

/**
 * Returns the hands of some bytes, each up to the next header line, and the number of newlines.
 * @param {Uint8Array} bytes
 */
export const cut = (bytes) => {
    /** @type {Place[]} */
    const places = [];
    let line = 1;
    for (let at = 0; at < bytes.length; line++) {
        if (beginsHand(bytes, at)) {
            if (places.length) places[places.length - 1].end = at;
            places.push({ line, start: at, end: bytes.length });
        }
        const end = bytes.indexOf(NEWLINE, at);
        if (end < 0) return { places, newlines: line - 1 };
        at = end + 1;
    }
    return { places, newlines: line - 1 };
};

/**
 * Returns the last place at which a hand begins, or -1. A hand that begins with the first byte doesn't count.
 * @param {Uint8Array} bytes
 */
export const lastHand = (bytes) => {
    for (let at = bytes.length; (at = bytes.lastIndexOf(NEWLINE, at - 1)) >= 0;) {
        if (beginsHand(bytes, at + 1)) return at + 1;
        if (at === 0) return -1;
    }
    return -1;
};

/**
 * Returns some text behind empty lines, so that the program counts its lines as the file does.
 * @param {Uint8Array} bytes
 * @param {number} line  the number of the first line
 */
export const numbered = (bytes, line) => {
    const text = new Uint8Array(line - 1 + bytes.length);
    text.fill(NEWLINE, 0, line - 1);
    text.set(bytes, line - 1);
    return text;
};

/**
 * Returns game, limit, and stakes of a header. A game with a limit counts at the first place of the header that has
 * both.
 * @param {string} header
 */
export const stakesOf = (header) => {
    let found = null;
    for (const game of GAMES) for (const limit of LIMITS) {
        const at = header.indexOf(`${game} ${limit}`);
        if (at >= 0 && (!found || at < found.at)) found = { at, game, limit, end: at + game.length + 1 + limit.length };
    }
    if (!found) return { game: '', limit: '', stakes: '', currency: '', isMoney: null };
    const it = AMOUNTS.exec(header.slice(found.end));
    if (!it) return { game: found.game, limit: found.limit, stakes: '', currency: '', isMoney: null };
    return {
        game: found.game,
        limit: found.limit,
        stakes: `${it[2]}/${it[3]}`,
        currency: it[4] || SIGNS.get(it[1]) || '',
        isMoney: it[1] !== '' || it[2].includes('.') || it[3].includes('.')
    };
};

/**
 * Returns a game of a header as reports name it.
 * @param {string} game
 */
export const wordOf = (game) => WORDS.get(game) || game;

const STUD = new Set(['7 Card Stud Hi/Lo', '7 Card Stud', 'Razz']);

/**
 * Returns what winnings of a hundred hands are counted in: the big blind, or in fixed limit the big bet, each the
 * second stake of the header, in whole units. Returns 0 for a tournament, a stud game, and a header without stakes.
 * @param {{ game: string, stakes: string, tournament: string, isMoney: boolean | null }} text
 */
export const bigOf = ({ game, stakes, tournament, isMoney }) =>
    tournament || STUD.has(game) || !stakes ? 0 : Math.round(Number(stakes.split('/')[1]) * (isMoney ? 100 : 1));

/**
 * Returns the unit in which a hand is counted, "chips" or "money USD", as far as the text says it.
 * @param {boolean} isMoney
 * @param {string} currency
 */
export const unitOf = (isMoney, currency) => isMoney ? `money ${currency}`.trim() : 'chips';

/**
 * Returns the names of the seat lines before the first street, by seat. A seat line is read as the program reads it.
 * @param {string[]} lines
 */
export const seatsOf = (lines) => {
    /** @type {Map<number, string>} */
    const seats = new Map();
    for (const line of lines.slice(1)) {
        if (line.startsWith('*** ')) break;
        const it = /^Seat ([0-9]+): (.*) in chips/.exec(line), at = it ? it[2].lastIndexOf(' (') : -1;
        if (it && at > 0) seats.set(Number(it[1]), it[2].slice(0, at));
    }
    return seats;
};

/**
 * What a hand's text says.
 * @param {string} text
 */
export const facts = (text) => {
    const lines = text.split(/\r?\n/), header = lines[0];
    const tournament = TOURNAMENT.exec(header);
    const table = /^Table '(.*)' [0-9]+-max/m.exec(text) || /^Table '(.*)'/m.exec(text),
          button = /^Table '.* Seat #([0-9]+) is the button/m.exec(text);
    const folded = new Set(), dealt = new Set();
    for (const line of lines) {
        const gone = /^(.*): folds(?: \[.*\])?\s*$/.exec(line);
        if (gone) folded.add(gone[1]);
        const hole = /^Dealt to (.*?) \[[^\]]* [^\]]*\]/.exec(line);
        if (hole) dealt.add(hole[1]);
    }
    return {
        ...stakesOf(header),
        clock: readClock(header),
        tournament: tournament ? tournament[1] : '',
        buyIn: tournament && tournament[2] || '',
        table: table ? table[1] : '',
        button: button ? Number(button[1]) : 0,
        seats: seatsOf(lines),
        folded,
        dealt,
        hasShowdown: /^\*\*\* (?:FIRST |SECOND )?SHOW DOWN \*\*\*/m.test(text),
        isCashed: / cashed out the hand for /.test(text)
    };
};
