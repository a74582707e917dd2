import assert from 'node:assert/strict';
import test from 'node:test';
import { leadOptions, leads, leadsOf } from '../src/ahead.mjs';
import { chosenText, filtered } from '../src/filters.mjs';
import { addPart, noHands } from '../src/hands.mjs';
import { readPart } from '../src/part.mjs';
import { codedFilters, daysOf } from '../src/options.mjs';
import { entriesOf, EVERYBODY, inOrder } from '../src/played.mjs';
import { POSITIONS, positionsOf } from '../src/positions.mjs';
import { allInStreet } from '../src/streets.mjs';
import { buyInsOf } from '../src/sums.mjs';
import { facts } from '../src/texts.mjs';
import { fileOf, made, reporter } from './made.mjs';

const handsOf = (all) => {
    const hands = noHands();
    hands.sources.push({ path: 'a', file: /** @type {any} */ (null) });
    addPart(hands, readPart(reporter(all), fileOf(all)), 0, 0, 0);
    return hands;
};

test('counts of options are those that each option alone would leave', () => {
    const one = (name, values, codes) => ({ name, values, codes: Uint32Array.from(codes),
        options: values.map((value, code) => ({ value, text: value, codes: [code] })) });
    const filters = [one('stakes', ['1/2', '2/4'], [0, 0, 1, 1, 1]), one('table', ['A', 'B', 'C'], [0, 1, 0, 1, 2])];
    // an option of several values
    filters[1].options.push({ value: 'any', text: 'any', codes: [1, 2] });
    for (const chosen of [{}, { stakes: '2/4' }, { table: 'A' }, { stakes: '2/4', table: 'A' }, { table: 'none' },
        { stakes: '1/2', table: 'any' }]) {
        const { places, counts } = filtered(filters, chosen, 5);
        const passes = (at, set) => filters.every(({ name, options, codes }) => set[name] === undefined
            || options.some((it) => it.value === set[name] && it.codes.includes(codes[at])));
        const left = (set) => [0, 1, 2, 3, 4].filter((at) => passes(at, set));
        assert.deepEqual([...places], left(chosen));
        filters.forEach(({ name, options }, it) => assert.deepEqual(counts[it],
            options.map(({ value }) => left({ ...chosen, [name]: value }).length),
            `${name} with ${JSON.stringify(chosen)}`));
    }
});

test('filters over hands have their options', () => {
    const hands = handsOf([
        made({ number: 1, clock: '2026/11/02 10:00:00' }), made({ number: 2, table: 'Vesta', isShown: false }),
        made({ number: 3, clock: '2026/12/24 10:00:00', isRejected: true, stakes: '$1/$2 USD' })
    ]);
    const entries = (name) => entriesOf(hands, inOrder(hands), name, 'money USD');
    const said = ({ value, text }) => value === text ? text : `${value}: ${text}`;
    const textsOf = (name) => Object.fromEntries(
        codedFilters(hands, entries(name)).map((it) => [it.name, it.options.map(said)]));
    assert.deepEqual(textsOf('Ben'), {
        dates: ['last 7: last 7 days', 'last 30: last 30 days', '2026-12: Dec 2026', '2026-11: Nov 2026',
            'none: no date'],
        stakes: ['holdem No Limit 0.50/1.00: 0.50/1.00', 'holdem No Limit 1/2: 1/2'],
        game: ['holdem: Hold\u2019em'],
        table: ['Ceres', 'Vesta'],
        tournament: ['none: no tournament'],
        position: ['BB: BB, big blind'],
        players: ['2'],
        session: ['2026-12-24 10:00:00: 24 Dec 2026 10:00', '2026-11-02 10:00:00: 2 Nov 2026 10:00', 'none: no date'],
        'all-in': ['none'],
        ahead: [],
        showdown: ['yes', 'no']
    });
    assert.deepEqual(textsOf('Ann').position, ['BTN: BTN, button']);
    assert.deepEqual(textsOf(EVERYBODY).position, ['none']);
});

test('dates are spans of days, of which both ends count', () => {
    const days = ['2026-11-01', '', '2026-11-03', '2026-12-01'];
    assert.deepEqual(['2026-11-01..2026-11-03', '..2026-11-02', '2026-11-04..', '..'].map((it) => daysOf(days, it)),
        [[0, 2], [0], [3], [0, 2, 3]]);
    const hands = handsOf(['01', '02', '09', '30'].map((day, at) =>
        made({ number: at + 1, clock: `2026/11/${day} 10:00:00` })));
    const entries = entriesOf(hands, inOrder(hands), 'Ann', 'money USD'), filters = codedFilters(hands, entries);
    const left = (dates) => [...filtered(filters, { dates }, entries.length).places];
    assert.deepEqual(['last 7', 'last 30', '2026-11', '2026-11-02..2026-11-09', 'none'].map(left),
        [[3], [0, 1, 2, 3], [0, 1, 2, 3], [1, 2], []]);
    assert.equal(chosenText(filters[0], '2026-11-02..2026-11-09'), '2 Nov 2026 – 9 Nov 2026');
    assert.equal(chosenText(filters[0], 'last 7'), 'last 7 days');
});

test('positions are those who posted the blinds, the button, and the others counted back from it', () => {
    const names = (text, seats, button) =>
        [...positionsOf(text, new Map(seats), button, seats.map(([, name]) => name))].map(([name, it]) =>
            `${name} ${POSITIONS[it]}`.trim());
    const blinds = 'PokerStars\nb: posts small blind $1\nc: posts big blind $2\nf: posts big blind $2\n';
    const seats = ['a', 'b', 'c', 'd', 'e', 'f'].map((name, at) => /** @type {[number, string]} */ ([at + 1, name]));
    assert.deepEqual(names(blinds, seats, 1), ['a BTN', 'b SB', 'c BB', 'd UTG', 'e HJ', 'f CO']);
    assert.deepEqual(names(blinds, [...seats, [7, 'g'], [8, 'h'], [9, 'i']], 1),
        ['a BTN', 'b SB', 'c BB', 'd UTG', 'e MP', 'f MP', 'g MP', 'h HJ', 'i CO']);
    // nobody posts a small blind, and the button's seat is empty
    assert.deepEqual(names('c: posts big blind $2\n', seats.slice(2), 1), ['c BB', 'd UTG', 'e HJ', 'f CO']);
    // two players: the button posts the small blind
    const two = 'b: posts small blind $1\nc: posts big blind $2\n';
    assert.deepEqual(names(two, seats.slice(1, 3), 2), ['b BTN', 'c BB']);
    // a game without blinds, and a text without a button, have none
    assert.deepEqual([names('a: posts the ante $1\n', seats.slice(0, 2), 1), names(blinds, seats.slice(1, 3), 0)],
        [['a', 'b'], ['b', 'c']]);
});

test('the street of an all-in is that of the last act, if cards came after it', () => {
    const hand =
        (...lines) => ['PokerStars Hand #1: x', '*** HOLE CARDS ***', ...lines, '*** SUMMARY ***', ''].join('\n');
    const allIn = ['a: bets $5 and is all-in', 'b: calls $5'],
          board = ['*** FLOP *** [2c]', '*** TURN *** [3c]', '*** RIVER *** [4c]'];
    assert.equal(allInStreet(hand(...allIn, ...board)), 'preflop');
    assert.equal(allInStreet(hand(board[0], ...allIn, board[1], board[2])), 'flop');
    assert.equal(allInStreet(hand(...board, ...allIn)), '');
    assert.equal(allInStreet(hand(...board, 'a: bets $5', 'b: calls $5')), '');
    assert.equal(allInStreet(hand('a: bets $5 and is all-in', 'b: calls $5', board[0], 'b: bets $1', 'c: folds')), '');
});

test('who is ahead on a street has the greatest part of the main pot', () => {
    const ev = (pot, part, name) => `pot,${pot},ev,${part},,,,,,,,,${name}\n`;
    const csv = 'hand,1,accepted,holdem,rake,0,,,,,,,\nall-in,preflop,runouts,1712304,,,,,,,,,\n'
        + `${ev(0, '0.378', 'ann')}${ev(0, '0.399', 'ben')}${ev(1, '0.473', 'ann')}${ev(1, '0.527', 'ben')}`
        + `street,turn,runouts,42,,,,,,,,,\n${ev(0, '0.500', 'ann')}${ev(0, '0.500', 'ben')}`
        + `street,river,runouts,1,,,,,,,,,\n${ev(0, '1.000', 'ann')}${ev(0, '0.000', 'ben')}`
        + 'hand,2,rejected,line,7,Chips,84.20,2.50,,,,,\nhand,3,accepted,holdem,rake,0,,,,,,,\n'
        + 'all-in,flop,unknown,,,,,,,,,,\n';
    const [first, ...others] = leadsOf(csv), values = [0, ...first.values()];
    assert.deepEqual(others.map((it) => it.size), [0, 0]);
    const has = (name) => leadOptions(values).filter(({ codes }) => codes.some((it) => values[it] === first.get(name)))
        .map(({ text }) => text);
    assert.deepEqual(has('ann'), ['not ahead preflop', 'not ahead on the turn']);
    assert.deepEqual(has('ben'), ['ahead preflop', 'not ahead on the turn']);
    assert.deepEqual(leadOptions([0]), []);
    assert.equal(leads(() => '', [], []).size, 0);
});

test('a tournament has its buy-in', () => {
    const tournament = (header) => {
        const it = facts(`PokerStars Hand #1: ${header}`);
        return [it.tournament, it.buyIn];
    };
    for (const [header, ...wanted] of [
        ['Tournament #61, $20+$2 USD Hold\'em No Limit - Level VI (50/100)', '61', '$20+$2 USD'],
        ['Tournament #62, €4.40+€0.60 EUR Omaha Pot Limit', '62', '€4.40+€0.60 EUR'],
        ['Tournament #63, Freeroll  Hold\'em No Limit - Level I', '63', 'Freeroll'],
        ['Tournament #64, 500+0 Hold\'em No Limit', '64', '500+0'], ['Hold\'em No Limit ($1/$2 USD)', '', '']
    ]) assert.deepEqual(tournament(header), wanted);
});

test('buy-ins of tournaments are added up by currency, each once', () => {
    const texts = ['', '1, $20+$2 USD', '2, $4.40+$0.60 USD', '3, €10+€1 EUR', '4', '5, Freeroll', '6, 500+0'];
    const hands = { texts, columns: { tournament: Uint32Array.from([1, 1, 2, 3, 4, 5, 6, 0]) } };
    const played = hands.columns.tournament.reduce((all, it, hand) => [...all, { hand, row: 0 }], []);
    assert.deepEqual(buyInsOf(/** @type {any} */ (hands), played),
        { tournaments: 6, sums: [['$', 2700n], ['€', 1100n]], unknown: 2 });
});
