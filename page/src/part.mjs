// A part of a file as columns: what the proved program says of its hands, and what their texts say beside that.
// A worker makes it, so the page's own thread only puts columns together.

import { leads } from './ahead.mjs';
import { packed } from './cards.mjs';
import { positionsOf } from './positions.mjs';
import { handsOf, settlementsOf, units } from './reports.mjs';
import { allInStreet, boardOf, cardsOf } from './streets.mjs';
import { bigOf, cut, facts, unitOf, wordOf } from './texts.mjs';

/** Flags of a hand. In a LIMIT hand the unit of a hundred hands is a big bet. */
export const ACCEPTED = 1, MONEY = 2, TWICE = 4, OWED = 8, CASHED = 16, UNIT_KNOWN = 32, SHOWDOWN = 64, LIMIT = 128;

/** Flags of a player of a hand. A SEATED row is of a rejected hand, of which only the seat line is known. */
export const UNKNOWN = 1, SHOWN = 2, DEALT = 4, SEATED = 8;

/**
 * What a player of a hand is still to get, or to give back if it is below 0.
 * @typedef {{ hand: number, name: string, amount: string }} Owed
 */

/**
 * Hands in columns. A text is an index into `texts`. The rows of players of hand h are those from `first[h]` to before
 * `first[h + 1]`. Lines and bytes are counted from the start of the part.
 * @typedef {{ numbers: string[], texts: string[], newlines: number, first: Uint32Array, owed: Owed[] }} Bare
 * @typedef {{ clock: Float64Array, line: Uint32Array, start: Uint32Array, end: Uint32Array, departs: Uint32Array,
 *     flags: Uint8Array, unit: Uint32Array, stakes: Uint32Array, game: Uint32Array, table: Uint32Array,
 *     tournament: Uint32Array, street: Uint32Array, cause: Uint32Array, rake: BigInt64Array, pot: BigInt64Array,
 *     big: Float64Array, board: Float64Array }} OfHands
 * @typedef {{ name: Uint32Array, net: BigInt64Array, even: BigInt64Array, got: BigInt64Array, raked: Float64Array,
 *     position: Uint8Array, marks: Uint8Array, cards: Float64Array, ahead: Uint8Array }} OfRows
 * @typedef {Bare & OfHands & OfRows} Part
 */

/**
 * What a column is made with.
 * @typedef {{ new (size: number): any, from: (values: any) => any }} ColumnKind
 */

/**
 * The columns of hands, with the kind of each. `pot` is what all pots hold, and `big` the big blind or the big bet, in
 * whole units; 0 if there is none.
 * @type {{ [column: string]: ColumnKind }}
 */
export const HAND_COLUMNS = {
    clock: Float64Array,
    line: Uint32Array,
    start: Uint32Array,
    end: Uint32Array,
    departs: Uint32Array,
    flags: Uint8Array,
    unit: Uint32Array,
    stakes: Uint32Array,
    game: Uint32Array,
    table: Uint32Array,
    tournament: Uint32Array,
    street: Uint32Array,
    cause: Uint32Array,
    rake: BigInt64Array,
    pot: BigInt64Array,
    big: Float64Array,
    board: Float64Array
};

/**
 * The columns of the players of hands, with the kind of each. `ahead` has the marks of `leadsOf`, and `raked` the part
 * of the rake that the player paid: as much of it as of what all players got.
 * @type {{ [column: string]: ColumnKind }}
 */
export const ROW_COLUMNS = {
    name: Uint32Array,
    net: BigInt64Array,
    even: BigInt64Array,
    got: BigInt64Array,
    raked: Float64Array,
    position: Uint8Array,
    marks: Uint8Array,
    cards: Float64Array,
    ahead: Uint8Array
};

/** The columns whose values are indices of texts. */
export const TEXT_COLUMNS = ['unit', 'stakes', 'game', 'table', 'tournament', 'street', 'cause'];

/** Returns a function that gives each text a number, and the texts by their numbers. */
const numbering = () => {
    const texts = [''], numbers = new Map([['', 0]]);
    /** @param {string} text */
    const number = (text) => {
        let it = numbers.get(text);
        if (it === undefined) {
            it = texts.push(text) - 1;
            numbers.set(text, it);
        }
        return it;
    };
    return { texts, number };
};

/**
 * Columns that are being filled.
 * @param {{ [column: string]: ColumnKind }} kinds
 */
const filling = (kinds) => {
    /** @type {{ [column: string]: (number | bigint)[] }} */
    const columns = Object.fromEntries(Object.keys(kinds).map((it) => [it, []]));
    return {
        columns,
        add: (/** @type {{ [column: string]: number | bigint }} */ values) => {
            for (const [column, value] of Object.entries(values)) columns[column].push(value);
        },
        filled: () => Object.fromEntries(Object.entries(kinds).map(([it, kind]) => [it, kind.from(columns[it])]))
    };
};

/** @typedef {ReturnType<typeof facts>} Facts */

/**
 * Returns the players of a hand, each with what they got and netted. Of a rejected hand only the seat lines are known.
 * @param {import('./reports.mjs').Hand} hand
 * @param {Facts} text
 */
const playersOf = (hand, text) => hand.isAccepted ? hand.players
    : [...text.seats.values()].map((name) => ({ name, net: 0n, even: null, got: 0n }));

/**
 * Reads a part of a file. `report(mode, input)` returns a report in CSV.
 * @param {(mode: string, input: Uint8Array) => string} report
 * @param {Uint8Array} bytes
 * @returns {Part}
 */
export const readPart = (report, bytes) => {
    const { places, newlines } = cut(bytes), decoder = new TextDecoder(), { length } = places;
    const judged = length ? handsOf(report('results', bytes)) : [];
    const settled = length ? settlementsOf(report('settle', bytes)) : [];
    // the program begins hands where this page does, and if not, nothing can be trusted
    if (judged.length !== length || settled.length !== length) {
        throw new Error('other hands are found than the program finds');
    }
    const { texts, number } = numbering(), hands = filling(HAND_COLUMNS), rows = filling(ROW_COLUMNS), first = [0];
    /** @type {Owed[]} */
    const owed = [];
    const wholes = places.map(({ start, end }) => decoder.decode(bytes.subarray(start, end)));
    const streets = wholes.map(allInStreet);
    const allIns = streets.flatMap((street, at) => street && judged[at].isAccepted ? [at] : []);
    const ahead = leads(report, allIns.map((at) => bytes.subarray(places[at].start, places[at].end)), allIns);
    judged.forEach((hand, at) => {
        const { line, start, end } = places[at], { settle, pots } = settled[at];
        const whole = wholes[at], text = facts(whole), lead = ahead.get(at);
        const isMoney = hand.isAccepted ? hand.isMoney : text.isMoney === true;
        const isUneven = pots.some((pot) => pot.shares.some(({ due, got }) => due !== null && due !== got));
        const flags = [[ACCEPTED, hand.isAccepted], [MONEY, isMoney], [TWICE, hand.isTwice],
            [OWED, settle.length > 0 || isUneven], [CASHED, text.isCashed],
            [UNIT_KNOWN, hand.isAccepted || text.isMoney !== null], [SHOWDOWN, text.hasShowdown],
            [LIMIT, text.limit === 'Limit']];
        const game = hand.game || wordOf(text.game), cards = cardsOf(whole);
        hands.add({
            clock: text.clock, line, start, end, departs: hand.line, rake: hand.rake, cause: number(hand.cause),
            flags: flags.reduce((all, [flag, isSet]) => isSet ? all | Number(flag) : all, 0),
            unit: number(unitOf(isMoney, text.currency)), game: number(game),
            stakes: number(`${game} ${text.limit} ${text.stakes}`.trim()), table: number(text.table),
            tournament: number([text.tournament, text.buyIn].filter(Boolean).join(', ')), street: number(streets[at]),
            pot: pots.reduce((sum, { gross }) => sum + units(gross), 0n), big: bigOf({ ...text, isMoney }),
            board: packed(boardOf(whole))
        });
        for (const { name, amount } of settle) owed.push({ hand: at, name, amount });
        const players = playersOf(hand, text);
        let all = 0n;
        for (const { got } of players) all += got;
        const positions = positionsOf(whole, text.seats, text.button, players.map(({ name }) => name));
        for (const { name, net, even, got } of players) {
            const isShown = text.hasShowdown && !text.folded.has(name);
            const marks = (even === null ? UNKNOWN : 0) | (isShown ? SHOWN : 0) | (text.dealt.has(name) ? DEALT : 0)
                | (hand.isAccepted ? 0 : SEATED);
            rows.add({ name: number(name), net, even: even === null ? net : even, got, marks,
                raked: hand.rake > 0n && got > 0n ? Number(hand.rake) * Number(got) / Number(all) : 0,
                position: positions.get(name) || 0, cards: packed(cards.get(name) || ''),
                ahead: lead && lead.get(name) || 0 });
        }
        first.push(rows.columns.name.length);
    });
    return /** @type {Part} */ (/** @type {any} */ ({ ...hands.filled(), ...rows.filled(), texts, newlines, owed,
        numbers: judged.map((it) => it.number), first: Uint32Array.from(first) }));
};

/**
 * Returns the buffers of a part, which can be handed to another thread without a copy.
 * @param {Part} part
 */
export const buffersOf = (part) =>
    Object.values(part).filter((it) => ArrayBuffer.isView(it)).map((it) => /** @type {Uint8Array} */ (it).buffer);
