import assert from 'node:assert/strict';
import test from 'node:test';
import { addPart, noHands } from '../src/hands.mjs';
import { nameOf, namesOf, tallyOf } from '../src/names.mjs';
import { numberOf, placesBy } from '../src/ordering.mjs';
import { readPart } from '../src/part.mjs';
import { entriesOf, EVERYBODY, handAt, inOrder, parted, playedBy, unitsOf } from '../src/played.mjs';
import { seriesOf } from '../src/series.mjs';
import { byKey, hundredsOf, keysOf, sumOf, sumsBy, totalOf } from '../src/sums.mjs';
import { fileOf, made, reporter } from './made.mjs';

/** Returns the hands of some files, read in the order in which they are given. */
const handsOf = (files) => {
    const hands = noHands();
    files.forEach(([path, all], index) => {
        hands.sources.push({ path, file: /** @type {any} */ (null) });
        addPart(hands, readPart(reporter(all), fileOf(all)), index, 0, 0);
    });
    return hands;
};
const numbersOf = (hands) => Array.from(inOrder(hands), (hand) => hands.numbers[hand]);

// two tables of one evening, past midnight, and a file without clocks
const FILES = [
    [
        'Ceres.txt',
        [
            made({ number: 11, clock: '2026/11/02 23:50:00', net: 100 }),
            made({ number: 14, clock: '2026/11/03 0:10:00', net: -300 })
        ]
    ],
    [
        'Vesta.txt',
        [
            made({ number: 12, clock: '2026/11/02 23:50:00', net: 250, table: 'Vesta' }),
            made({ number: 9, clock: '2026/11/03 0:05:00', net: 50, table: 'Vesta' }),
            made({ number: 15, clock: '2026/11/03 2:00:00', net: 25, table: 'Vesta' })
        ]
    ],
    ['old.txt', [made({ number: 3, net: 10 }), made({ number: 2, net: 20 })]],
];

test(
    'hands are in order of clock and number, and those without a clock come last, however the files are listed', () => {
        for (const files of [FILES, [...FILES].reverse(), [FILES[1], FILES[2], FILES[0]]]) {
            assert.deepEqual(numbersOf(handsOf(files)), ['11', '12', '9', '14', '15', '3', '2']);
        }
    });

test('clocks of very different years are in order too', () => {
    const far = ['1000/01/01 0:00:00', '2999/12/31 23:59:59', '1969/12/31 23:59:59', '2026/01/01 0:00:00'];
    const hands = handsOf([['a', far.map((clock, at) => made({ number: at + 1, clock }))]]);
    assert.deepEqual(numbersOf(hands), ['1', '3', '4', '2']);
});

test('each copy of the files gives one graph, and x rises', () => {
    for (const by of ['hand', 'day', 'session']) {
        const graphs = [FILES, [...FILES].reverse()].map((files) => {
            const hands = handsOf(files);
            return seriesOf(hands, playedBy(hands, inOrder(hands), 'Ann', 'money USD'), by);
        });
        assert.deepEqual(graphs[0], graphs[1]);
        const { x, lines: [won], without } = graphs[0];
        x.forEach((it, at) => assert.ok(at === 0 || it > x[at - 1], by));
        assert.equal(without, by === 'hand' ? 0 : 2);
        if (by === 'hand') assert.deepEqual([...won], [1, 3.5, 4, 1, 1.25, 1.35, 1.55]);
        if (by === 'day') assert.deepEqual([...won], [3.5, 1.25]);
        if (by === 'session') assert.deepEqual([[...x], [...won]], [[1, 2], [1, 1.25]]);
    }
});

test('sums by day, session, table and stakes', () => {
    const hands = handsOf(FILES), played = playedBy(hands, inOrder(hands), 'Ann', 'money USD');
    const nets =
        (group) => [...sumsBy(hands, played, keysOf(hands, played, group))].map(([key, sum]) => [key, sum.net]);
    assert.deepEqual(nets('day'), [['2026-11-02', 350n], ['2026-11-03', -225n], ['no date', 30n]]);
    assert.deepEqual(nets('session'), [['2026-11-02 23:50', 100n], ['2026-11-03 02:00', 25n], ['no date', 30n]]);
    assert.deepEqual(nets('table'), [['Ceres', -170n], ['Vesta', 325n]]);
    assert.deepEqual(nets('tournament'), [['no tournament', 155n]]);
    assert.equal(sumOf(hands, played).net, 155n);
    assert.deepEqual(['10/20', '2/4', '5/10'].sort(byKey), ['2/4', '5/10', '10/20']);
});

test('a number that comes again counts once: an accepted hand, and otherwise the first by path', () => {
    const one = [made({ number: 1, clock: '2026/11/02 10:00:00', isRejected: true })],
          other = [made({ number: 1, clock: '2026/11/02 10:00:00', net: 700 })];
    const third = [made({ number: 1, clock: '2026/11/02 10:00:00', net: 300 })];
    for (const files of [[['a', one], ['b', other], ['c', third]], [['c', third], ['b', other], ['a', one]]]) {
        const hands = handsOf(files), order = inOrder(hands);
        assert.equal(order.length, 1);
        assert.equal(hands.again, 2);
        assert.equal(sumOf(hands, playedBy(hands, order, 'Ann', 'money USD')).net, 700n);
        assert.equal(handAt(hands, order[0]).source.path, 'b');
    }
});

test('luck that is unknown is counted, and adjusted is won in such a hand', () => {
    const hands = handsOf(
        [['a', [made({ number: 1, net: 500, even: NaN }), made({ number: 2, net: 500, even: 200, isShown: false })]]]);
    const sum = sumOf(hands, playedBy(hands, inOrder(hands), 'Ann', 'money USD'));
    assert.deepEqual([sum.hands, sum.net, sum.even, sum.unknown, sum.shown], [2, 1000n, 700n, 1, 500n]);
});

test('figures say which rejected hands of the player they leave out', () => {
    const hands = handsOf([[
        'a',
        [
            made({ number: 1 }), made({ number: 2, isRejected: true }),
            made({ number: 3, isRejected: true, isCashed: true }),
            made({ number: 4, isRejected: true, stakes: '10/20' })
        ]
    ]]);
    const order = inOrder(hands), { played, left } = parted(hands, entriesOf(hands, order, 'Ann', 'money USD'));
    const numbers = (some) => some.map(({ hand }) => hands.numbers[hand]);
    assert.deepEqual([numbers(played), numbers(left)], [['1'], ['2', '3']]);
    assert.deepEqual(entriesOf(hands, order, 'Zoe', 'money USD'), []);
    assert.deepEqual(numbers(entriesOf(hands, order, EVERYBODY, '')), ['1', '2', '3', '4']);
    assert.deepEqual(numbers(entriesOf(hands, order, EVERYBODY, 'money USD')), ['1', '2', '3']);
    const tally = tallyOf(hands, order);
    const [ann, ben] = [{ name: 'Ann', count: 1, dealt: 1 }, { name: 'Ben', count: 1, dealt: 0 }];
    assert.deepEqual([tally.size, namesOf(hands, tally, 5), namesOf(hands, tally, 1)], [2, [ann, ben], [ann]]);
    assert.deepEqual([nameOf(hands, tally, 'Ben').count, nameOf(hands, tally, 'Zoe').count], [1, 0]);
    assert.deepEqual(unitsOf(hands, order, 'Ann'), ['money USD']);
});

test('sums are exact beyond the numbers of a browser', () => {
    const hands = handsOf([['a', [made({ number: 1, net: 2 ** 53 - 1 }), made({ number: 2, net: 2 })]]]);
    const played = playedBy(hands, inOrder(hands), 'Ann', 'money USD'), exact = 2n ** 53n + 1n;
    assert.deepEqual([sumOf(hands, played).net, totalOf(hands, 'pot', played)], [exact, 400n]);
    assert.deepEqual([...sumsBy(hands, played, ['a', 'a'])].map(([, { even }]) => even), [exact]);
});

test('numbers sort as they rise, packed or not', () => {
    for (const keys of [[3, 1, 2, 1], [2.5, -1, 0.5, -1], [2 ** 52, -5, 3, -5], []]) {
        const wanted = keys.map((key, at) => at).sort((a, b) => keys[a] - keys[b] || a - b);
        assert.deepEqual([...placesBy(Float64Array.from(keys))], wanted);
    }
    assert.deepEqual(['7', '0', '9007199254740991', '9007199254740993', '007', ''].map(numberOf),
        [7, 0, 9007199254740991, NaN, NaN, NaN]);
    const many = Array.from({ length: 20 }, (it, at) => made({ number: 99 - at, clock: '2026/11/02 10:00:00' }));
    const long = made({ number: '9'.repeat(19), clock: '2026/11/02 10:00:00' });
    for (const all of [many, [long, ...many]]) {
        const numbers = all.map(({ number }) => BigInt(number)).sort((a, b) => a < b ? -1 : 1).map(String);
        assert.deepEqual(numbersOf(handsOf([['a', all]])), numbers);
    }
});

test('parts of a file keep its lines and bytes', () => {
    const all = [made({ number: 1 }), made({ number: 2, isRejected: true })], hands = noHands();
    hands.sources.push({ path: 'a', file: /** @type {any} */ (null) });
    const first = readPart(reporter(all), fileOf([all[0]]));
    addPart(hands, first, 0, 0, 0);
    addPart(hands, readPart(reporter(all), fileOf([all[1]])), 0, first.newlines, fileOf([all[0]]).length);
    const it = handAt(hands, 1);
    assert.deepEqual([it.line, it.departs, it.start, it.end], [12, 18, fileOf([all[0]]).length, fileOf(all).length]);
});

test('a program that finds other hands is refused', () => {
    assert.throws(() => readPart(() => '', fileOf([made({ number: 1 })])), /other hands/);
});

test('winnings of a hundred hands are in big blinds of each hand, and in limit in big bets', () => {
    const hands = handsOf([['a', [
        made({ number: 1, net: 300 }), made({ number: 2, net: -100, stakes: '$1/$2 USD' }),
        made({ number: 3, net: 800, stakes: '$2/$4 USD', game: 'Hold\'em Limit' }),
        made({ number: 4, net: 5000, stakes: '10/20', before: 'Tournament #7, $10+$1 USD ' }),
        made({ number: 5, net: 700, stakes: '$2/$4 USD', game: '7 Card Stud Limit' })
    ]]]);
    const played = playedBy(hands, inOrder(hands), 'Ann', 'money USD');
    // 3 big blinds of $1, less half of one of $2, and 2 big bets of $4, in 3 hands
    assert.deepEqual(hundredsOf(sumOf(hands, played)), { net: 150, even: 150, rake: 0, hands: 3 });
    const stud = played.filter(({ hand }) => hands.numbers[hand] === '5');
    assert.equal(hundredsOf(sumOf(hands, stud)), null);
});

test('the graph has showdown and non-showdown winnings, and the place of each point', () => {
    const hands = handsOf([['a', [
        made({ number: 1, clock: '2026/11/02 10:00:00', net: 500, even: 200 }),
        made({ number: 2, clock: '2026/11/02 10:01:00', net: -150, isShown: false }),
        made({ number: 3, clock: '2026/11/03 10:01:00', net: 100, even: 50 })
    ]]]);
    const played = playedBy(hands, inOrder(hands), 'Ben', 'money USD');
    const { lines: [won, adjusted, shown, unshown], at, hands: counts } = seriesOf(hands, played, 'day');
    assert.deepEqual([[...won], [...adjusted]], [[-3.5, -4.5], [-0.5, -1]]);
    assert.deepEqual([[...shown], [...unshown]], [[-5, -6], [1.5, 1.5]]);
    assert.deepEqual([[...at], [...counts]], [[1, 2], [2, 1]]);
});
