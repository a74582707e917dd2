import assert from 'node:assert/strict';
import test from 'node:test';
import { cardsIn, packed, spoken, unpacked } from '../src/cards.mjs';
import { makeChoice } from '../src/choice.mjs';
import { found } from '../src/find.mjs';
import { addPart, noHands } from '../src/hands.mjs';
import { readPart } from '../src/part.mjs';
import { entriesOf, EVERYBODY, inOrder } from '../src/played.mjs';
import { scrollTo, sorted, windowOf } from '../src/sorting.mjs';
import { dayText, momentText, ratioText, stakesText, sumText, unitText } from '../src/words.mjs';
import { fileOf, made, reporter } from './made.mjs';

const handsOf = (all) => {
    const hands = noHands();
    hands.sources.push({ path: 'a', file: /** @type {any} */ (null) });
    addPart(hands, readPart(reporter(all), fileOf(all)), 0, 0, 0);
    return hands;
};
const some = () => handsOf([
    made({ number: 1007, clock: '2026/11/02 10:00:00', net: 300, even: 100, cards: 'As Kd', board: '2c 7h Ks' }),
    made({ number: 1002, clock: '2026/11/02 10:01:00', net: -100, even: -400, cards: '9h 9d',
        board: 'Ah 3d 4d Tc 6s' }),
    made({ number: 99, clock: '2026/11/02 10:02:00', net: 200, cards: 'Kh Ah', table: 'Pallas 99', board: '' }),
    made({ number: 1005, clock: '2026/11/02 10:03:00', cards: '7c 2d', isRejected: true, board: '' })
]);

test('cards are packed and come back', () => {
    for (const text of ['', 'As', '2c', 'As Kd Qh Jc Ts 9d 8h 7c'])
        assert.deepEqual(unpacked(packed(text)), cardsIn(text));
    assert.equal(new Set(cardsIn('2c2d2h2sAcAdAhAs').map(packed)).size, 8);
    assert.equal(spoken('As'), 'ace of spades');
});

test('hands are found by number, name, table, cards, and class', () => {
    const hands = some(), entries = entriesOf(hands, inOrder(hands), 'Ann', 'money USD');
    const numbers = (words) => found(hands, entries, words).map(({ hand }) => hands.numbers[hand]);
    const all = ['1007', '1002', '99', '1005'];
    assert.deepEqual(numbers(''), all);
    assert.deepEqual(numbers('100'), ['1007', '1002', '1005']);
    assert.deepEqual(numbers('ben'), all);
    assert.deepEqual(numbers('pallas'), ['99']);
    assert.deepEqual([numbers('AK'), numbers('aks'), numbers('KAo'), numbers('99')],
        [['1007', '99'], ['99'], ['1007'], ['1002', '99']]);
    // cards of the player or of the board
    assert.deepEqual([numbers('Ah'), numbers('AsKs'), numbers('as 7h'), numbers('AhKd')],
        [['1002', '99'], ['1007'], ['1007'], []]);
    assert.deepEqual(numbers('zoe'), []);
    const every = entriesOf(hands, inOrder(hands), EVERYBODY, '');
    assert.deepEqual(found(hands, every, 'AKs').map(({ hand }) => hands.numbers[hand]), ['99']);
});

test('a list is sorted by each column, and hands of one value stay in order of time', () => {
    const hands = some(), entries = entriesOf(hands, inOrder(hands), 'Ann', 'money USD');
    const by = (column, isUp) => sorted(hands, entries, column, isUp).map(({ hand }) => hands.numbers[hand]).join(' ');
    assert.equal(by('time', true), '1007 1002 99 1005');
    assert.equal(by('time', false), '1005 99 1002 1007');
    assert.equal(by('number', true), '99 1002 1005 1007');
    assert.equal(by('net', true), '1002 1005 99 1007');
    assert.equal(by('luck', false), '1002 1007 1005 99');
    assert.equal(by('cards', false), '1002 99 1007 1005');
    assert.equal(by('verdict', false), '1005 99 1002 1007');
    for (const column of ['stakes', 'board', 'position', 'pot', 'all-in']) assert.equal(by(column, true).length, 17);
});

test('the rows that are drawn are those that can be seen, in a list of any length', () => {
    assert.deepEqual(windowOf({ count: 100, size: 10, scroll: 0, height: 95 }),
        { from: 0, to: 18, above: 0, below: 820 });
    assert.deepEqual(windowOf({ count: 100, size: 10, scroll: 500, height: 100 }),
        { from: 42, to: 68, above: 420, below: 320 });
    assert.deepEqual(windowOf({ count: 0, size: 10, scroll: 0, height: 100 }), { from: 0, to: 0, above: 0, below: 0 });
    for (const count of [118800, 1e6]) {
        const height = 600, size = 34, whole = Math.min(count * size, 15e6), end = whole - height;
        const last = windowOf({ count, size, scroll: end, height });
        assert.equal(last.to, count, `${count} rows end with the last`);
        for (let scroll = 0; scroll <= end; scroll += end / 50) {
            const it = windowOf({ count, size, scroll, height }), drawn = (it.to - it.from) * size;
            assert.ok(Math.abs(it.above + drawn + it.below - whole) < 1, `${count} rows have one height`);
            assert.ok(it.above <= scroll + 1 && it.above + drawn >= Math.min(whole, scroll + height) - 1,
                `${count} rows fill the list at ${scroll}`);
        }
        for (const row of [0, 1, count >> 1, count - 1]) {
            const scroll = scrollTo({ count, size, scroll: 0, height }, row);
            const it = windowOf({ count, size, scroll, height });
            assert.ok(it.from <= row && row < it.to, `row ${row} of ${count} is drawn`);
        }
    }
});

test('the choice has what the list shows, and counts it', () => {
    const own = some(), state = /** @type {any} */ ({ collections: { own }, collection: 'own', version: 1, player: '',
        unit: '', filters: {}, words: '', which: 'all', order: 'time', isUp: true });
    const choose = makeChoice(state);
    assert.equal(choose().player, 'Ann');
    assert.deepEqual(choose().found.counts, [4, 0, 1, 0]);
    state.which = 'rejected';
    assert.deepEqual(choose().listed.map(({ hand }) => own.numbers[hand]), ['1005']);
    Object.assign(state, { which: 'all', words: 'AK', isUp: false });
    assert.deepEqual(choose().listed.map(({ hand }) => own.numbers[hand]), ['99', '1007']);
    assert.deepEqual([choose().played.length, choose().left.length], [3, 1]);
    state.player = EVERYBODY;
    assert.deepEqual([choose().isEvery, choose().unit, choose().entries.length], [true, '', 4]);
});

test('amounts, dates, and stakes are written as they are read', () => {
    const money = { isMoney: true, sign: '$' };
    assert.deepEqual([sumText(-123456n, money), sumText(5n, { ...money, plus: true }), sumText(0n, money),
        sumText(-12345n, { isMoney: false })], ['\u2212$1,234.56', '+$0.05', '$0.00', '\u221212,345']);
    assert.deepEqual([ratioText(-40.46), ratioText(-0.04), ratioText(1234.5)], ['\u221240.5', '0.0', '1,234.5']);
    assert.deepEqual([dayText(NaN), momentText(Date.UTC(2026, 2, 2, 21, 5) / 1000)], ['no date', '2 Mar 2026 21:05']);
    assert.deepEqual([stakesText('holdem No Limit 0.50/1.00'), stakesText('omaha8 Limit 2/4', true),
        stakesText('Badugi', true)], ['0.50/1.00', 'Omaha Hi/Lo Limit 2/4', 'Badugi']);
    assert.deepEqual(['money USD', 'money CHF', 'chips'].map(unitText), ['$', 'CHF', 'chips']);
});
