import assert from 'node:assert/strict';
import { readFileSync } from 'node:fs';
import test from 'node:test';
import { changeOf, oddsOf, spotLine } from '../src/odds.mjs';
import { replay, together } from '../src/replay.mjs';

const handsIn = (name) => readFileSync(new URL(`../../examples/${name}.txt`, import.meta.url), 'utf8')
    .split(/(?=^PokerStars )/m);

test('a hand is replayed street by street', () => {
    const [text] = handsIn('streets'), { streets, seats, folded } = replay(text, 10, false);
    assert.deepEqual(seats.map(({ name, had }) => [name, had]), [['ann', 3000n], ['ben', 2400n], ['cy', 900n]]);
    assert.deepEqual(streets.map(({ name, key, board, fresh }) => [name, key, board.length, fresh.join(' ')]), [
        ['Preflop', 'preflop', 0, ''], ['Flop', 'flop', 3, 'Kc 8s 7d'], ['Turn', 'turn', 4, 'Td'],
        ['River', 'river', 5, '9h'], ['Showdown', 'showdown', 5, '']
    ]);
    const [preflop] = streets, { stacks, pot, bets, isOpen } = preflop.after;
    assert.deepEqual([[...stacks.values()], pot, [...bets], isOpen, folded.size], [
        [600n, 0n, 0n], 5700n, [['ben', 2400n], ['cy', 900n], ['ann', 2400n]], true, 0
    ]);
    assert.deepEqual(preflop.acts.map(({ line, name, words, amount, isAllIn }) =>
        `${line} ${name} ${words} ${amount}${isAllIn ? ', all-in' : ''}`), [
        '15 ben posts small blind 50', '16 cy posts big blind 100', '18 ann raises to 300', '19 ben raises to 900',
        '20 cy calls 800, all-in', '21 ann raises to 3000, all-in', '22 ben calls 1500, all-in', '23 ann gets back 600'
    ]);
});

test('antes, dead blinds, bring-ins, and draws are put in as the rules have them', () => {
    const stud = replay(handsIn('mixed')[1], 1, true), draw = replay(handsIn('mixed')[3], 1, true);
    assert.deepEqual(stud.streets.map(({ key }) => key), ['3rd', '4th', '5th', '6th', 'river', 'showdown']);
    assert.deepEqual([stud.streets[0].after.pot, [...stud.streets[0].after.bets]],
        [575n, [['hal', 200n], ['ivy', 200n], ['jon', 100n]]]);
    assert.deepEqual(stud.streets[1].after.cards.get('hal'), ['Ad', 'Ac', '9h', '5s']);
    assert.deepEqual(draw.streets[0].acts.slice(-2).map(({ words }) => words), ['stands pat', 'discards 1 card']);
    const dead = replay(['PokerStars Hand #1: Hold\'em No Limit ($1/$2 USD)', 'Seat 1: a ($50 in chips)',
        'Seat 2: a b ($50.50 in chips)', 'a b: posts small & big blinds $3', '*** HOLE CARDS ***',
        'a b: raises $4 to $6', 'a: folds [As Kh]', '*** SUMMARY ***'].join('\n'), 1, true);
    const { stacks, pot } = dead.streets[0].after;
    assert.deepEqual([[...stacks], pot, dead.cards.get('a')], [[['a', 5000n], ['a b', 4350n]], 700n, ['As', 'Kh']]);
});

test('two boards are streets of their own, and odds are those of the first', () => {
    const { streets } = replay(handsIn('twice')[0], 1, true);
    const later = streets.filter(({ name }) => /^(First|Second)/.test(name));
    assert.deepEqual(later.map(({ name, key }) => [name, key]), [
        ['First river', 'river'], ['Second river', ''], ['First showdown', 'showdown'], ['Second showdown', '']
    ]);
});

test('folds in a row are one line', () => {
    const [first] = handsIn('session').slice(0, 1), { streets } = replay(first, 1, true);
    const act = streets[0].acts.find(({ kind }) => kind === 'folds');
    assert.deepEqual(together([act, { ...act, name: 'lou' }, { ...act, kind: 'calls' }]).map(({ names }) => names),
        [['kim', 'lou'], ['kim']]);
});

// as the program prints them for examples/streets.txt, shortened
const STREETS = [
    'hand,7411,accepted,holdem,rake,0,,,,,,,', 'pot,0,gross,2700,rake,0,checked,,,,,,',
    'all-in,preflop,runouts,1370754,,,,,,,,,', 'pot,0,high,win,517203,37.73,tie,2637,0.19,lose,850914,62.08,ann',
    'pot,0,ev,0.378,,,,,,,,,ann', 'pot,0,high,win,545967,39.83,tie,2637,0.19,lose,822150,59.98,ben',
    'pot,0,ev,0.399,,,,,,,,,ben', 'expect,2440,,,,,,,,,,,ann', 'street,flop,runouts,903,,,,,,,,,',
    'pot,0,high,win,518,57.36,tie,0,0.00,lose,385,42.64,ann', 'pot,0,ev,0.574,,,,,,,,,ann', ''
].join('\n');

test('the odds of each street are read, with the change since the street before', () => {
    const { game, streets, grosses, expected } = oddsOf(STREETS);
    assert.deepEqual([game, grosses, [...expected]], ['holdem', ['2700'], [['ann', '2440']]]);
    assert.deepEqual(streets.map(({ street, runouts }) => [street, runouts]), [['preflop', 1370754], ['flop', 903]]);
    const [ann] = streets[1].pots[0].rows;
    assert.deepEqual([ann, changeOf(streets[0], 0, ann), changeOf(undefined, 0, ann)], [
        { name: 'ann', part: 0.574, sides: [{ side: 'high', win: 518, tie: 0, lose: 385 }] }, 19.6, null
    ]);
    assert.deepEqual(oddsOf('hand,1,accepted,holdem,rake,0,,,,,,,\nall-in,none,,,,,,,,,,,\n').streets, []);
});

test('a street is a spot, with the known cards of those who folded as dead ones', () => {
    const cards = new Map([['ann', ['As', 'Ks']], ['ben', ['Th', 'Tc']], ['kim', ['8s', '3d']]]);
    const odds = oddsOf(STREETS).streets[0], hand = { board: [], cards, folded: new Set(['kim']) };
    assert.equal(spotLine('holdem', odds, hand), 'holdem As Ks - Th Tc / 8s 3d');
    assert.equal(spotLine('holdem', odds, { ...hand, board: ['2c', '7d', '9h'], folded: new Set() }),
        'holdem As Ks - Th Tc -- 2c 7d 9h');
    assert.equal(spotLine('draw5', odds, hand), '');
    assert.equal(spotLine('holdem', odds, { ...hand, cards: new Map() }), '');
    assert.equal(spotLine('holdem', { ...odds, runouts: 1 }, hand), '');
});
