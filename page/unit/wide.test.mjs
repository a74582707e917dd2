import assert from 'node:assert/strict';
import test from 'node:test';
import { fixed, percentOf, readAnswers, shareOf, writtenAnswer } from '../src/answers.mjs';
import { choicesOf, combosOf, comboText } from '../src/combos.mjs';
import { addPart, checkSum, noAnswer, piecesOf, planOf, runoutsOf } from '../src/wide.mjs';

const spot = (sides, board = [], dead = []) => ({ sides, board, dead });
const hands = (range, gone) => combosOf(range, gone).map(comboText);
/** All ways to take one from each list. */
const product = (lists) => lists.reduce((all, list) => all.flatMap((it) => list.map((one) => [...it, one])), [[]]);

test('a range has the hands of its items, with the sums of their weights, and none with a card that is gone', () => {
    assert.deepEqual(hands('AsKh,KhAs:2'), ['AsKh:3']);
    assert.deepEqual(hands('KK'), ['KcKd', 'KcKh', 'KcKs', 'KdKh', 'KdKs', 'KhKs']);
    assert.deepEqual(hands('AKs,AsKs', ['Ac', 'Kd']), ['AhKh', 'AsKs:2']);
    const any = '22+,A2+,K2+,Q2+,J2+,T2+,92+,82+,72+,62+,52+,42+,32';
    assert.deepEqual(['TT+', 'A9s+', 'JTs+', 'AKo', 'AK', 'A2+', '32', any].map((it) => hands(it).length),
        [30, 20, 4, 12, 16, 192, 16, 1326]);
});

test('choices are counted as in a list of them', () => {
    const lines = [
        ['TT+', 'AK'], ['AA:3,AKs', 'AKo:2,KK'], ['QQ+', 'AK', 'AQs:2,KK'], ['AK', 'AK:2', 'AK'], ['AA', 'AA', 'AA']
    ];
    for (const ranges of lines) {
        const sides = ranges.map((range) => combosOf(range, ['As']));
        const apart = product(sides).filter((choice) => {
            const cards = choice.flatMap(({ first, second }) => [first, second]);
            return new Set(cards).size === cards.length;
        });
        const weight = apart.reduce((sum, choice) => sum + choice.reduce((all, it) => all * it.weight, 1), 0);
        assert.deepEqual(choicesOf(sides), { choices: apart.length, weight }, ranges.join(' - '));
    }
});

test('each choice of hands is in exactly one part, and each part is below the limit', () => {
    const rows = [
        [spot(['TT+', 'AK']), 32, 2e8, ''],
        [spot(['22+', 'AK', 'AQs:2']), 4, 2e8, ''],
        [spot(['TT+:3,AQ', '99,AK'], ['2c', '7d', '9h'], ['Ks']), 1, 3e5, ' -- 2c 7d 9h / Ks']
    ];
    for (const [it, wanted, limit, rest] of rows) {
        const plan = planOf(it, wanted, limit), seen = [];
        let count = 0;
        for (const { line, ways } of plan.parts()) {
            assert.ok(line.startsWith('holdem ') && line.endsWith(rest) && ways * plan.runouts <= limit, line);
            const choices = product(
                line.slice('holdem '.length, line.length - rest.length).split(' - ').map((range) => range.split(',')));
            assert.equal(choices.length, ways);
            seen.push(...choices.map((choice) => choice.join(' - ')));
            count++;
        }
        const all = product(it.sides.map((range) => hands(range, [...it.board, ...it.dead])));
        assert.deepEqual([count, seen.length, plan.ways], [plan.count, all.length, all.length]);
        assert.deepEqual(seen.sort(), all.map((choice) => choice.join(' - ')).sort());
    }
});

test('runouts are those of one choice, and pieces are at most so large', () => {
    const flop = ['2c', '7d', '9h'], two = ['AA', 'KK'];
    assert.deepEqual([spot(two), spot([...two, 'QQ']), spot(two, flop), spot(two, flop, ['As'])].map(runoutsOf),
        [1712304, 1370754, 990, 946]);
    const rows =
        [[[30, 16], 116, [5, 1]], [[5, 5], 100, [1, 1]], [[1326, 1326], 116, [1326, 12]], [[0, 6], 16, [0, 1]]];
    for (const [sizes, most, wanted] of rows) assert.deepEqual(piecesOf(sizes, most), wanted);
});

const REPORT = 'spot 1 holdem choices 2 runouts 44 weight 3\n' +
    'hand 1 high win 126 95.45 tie 0 0.00 lose 6 4.55\nhand 1 ev 0.955\n' +
    'hand 2 high win 6 4.55 tie 0 0.00 lose 126 95.45\nhand 2 ev 0.045\n';

test('answers are read, added up, checked, and written as the program writes them', () => {
    const [{ answer }] = readAnswers(REPORT), plan = planOf(spot(['AsAh', 'KsKh,QcQd:2'], ['2c', '7d', '9h', '4s']), 1);
    assert.equal(writtenAnswer(answer), REPORT);
    assert.deepEqual([percentOf(answer, 0).text, shareOf(answer, 1)], ['95.45%', [6n, 132n]]);
    const sum = noAnswer(plan);
    assert.throws(() => checkSum(sum, plan), /0 choices instead of 2/);
    for (const read of readAnswers(`${REPORT}spot 2 rejected line 2 NoChoice\n`)) addPart(sum, read);
    checkSum(sum, plan);
    assert.equal(writtenAnswer(sum), REPORT);
    addPart(sum, { answer });
    assert.throws(() => checkSum(sum, plan), /4 choices instead of 2/);
    assert.throws(() => addPart(sum, { refusal: 'above' }), /above/);
    const refused = 'spot 1 rejected line 1 TwiceCard As\nspot 2 holdem refused above 200000000 runouts\n';
    assert.deepEqual(readAnswers(refused), [{ refusal: 'TwiceCard As' }, { refusal: 'above' }]);
});

test('the share of three players tells ties of two from ties of three', () => {
    const player = (win, tie, lose) => ({ sides: [{ side: 'high', win, tie, lose }], ev: '0.500' });
    // of 12 runouts the first wins 3, the second 2, all three share 4, and the first shares 3 with the third
    const answer = { hands: [player(3n, 7n, 2n), player(2n, 4n, 6n), player(0n, 7n, 5n)], total: 12n };
    const values = [0, 1, 2].map((at) => {
        const [over, under] = shareOf(answer, at);
        return Number(72n * over / under);
    });
    assert.deepEqual(values, [6 * (3 + 3 / 2) + 8, 6 * 2 + 8, 6 * (3 / 2) + 8]);
    assert.equal(shareOf({ ...answer, hands: [...answer.hands, player(0n, 1n, 11n)] }, 0), null);
    assert.deepEqual([fixed([1n, 8n], 2), fixed([1n, 3n], 0), fixed([2n, 3n], 0), fixed([1n, 2n], 3)],
        ['0.13', '0', '1', '0.500']);
});
