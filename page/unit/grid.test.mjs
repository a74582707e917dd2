import assert from 'node:assert/strict';
import test from 'node:test';
import { choicesOf, combosOf } from '../src/combos.mjs';
import { countJobs, durationText } from '../src/counting.mjs';
import { makeHeat, planHeat } from '../src/heat.mjs';
import { countOf, fullOf, NAMES, readRange, withCells, writtenRange } from '../src/range.mjs';

test('a range of the grid is read and written, with its weights', () => {
    const it = readRange('TT+,A9s+,KQ,AsKh,QQ:2');
    assert.deepEqual([it.cells.size, it.others, countOf(it)], [12, ['AsKh', 'QQ:2'], 66]);
    assert.equal(writtenRange(it), 'TT+,A9s+,KQ,AsKh,QQ:2');
    assert.equal(writtenRange(readRange('AK:2,QQ,JJ+:2')), 'AK:2,QQ,JJ+:2');
    assert.equal(writtenRange(readRange('KK:2,TT,AA:2,AK')), 'KK+:2,TT,AK');
    assert.deepEqual([fullOf(readRange('AA:2,KK')), fullOf(readRange('AA:50')), fullOf(readRange(''))], [2, 100, 1]);
});

test('cells get and lose weights, and others keep theirs', () => {
    const rows = [
        ['', ['AA', 'KK'], 100, 'KK+'],
        ['KK+,AsQs', ['AKs'], 50, 'KK+:100,AKs:50,AsQs:100'],
        ['KK+:100,AKs:50,AsQs:100', ['AKs'], 100, 'KK+,AKs,AsQs'],
        ['KK+:100,AKs:50', ['AA', 'KK'], 0, 'AKs:50'],
        ['AA:2,KK', ['AA'], 0, 'KK'],
        ['AA:2,KK', ['QQ'], 100, 'AA:2,QQ:2,KK'],
        ['AA:2,KK', ['QQ'], 25, 'AA:100,KK:50,QQ:25'],
        ['AA', ['AKs', 'AKo'], 100, 'AA,AK']
    ];
    for (const [range, names, percent, wanted] of rows)
        assert.equal(writtenRange(withCells(readRange(range), names, percent)), wanted, `${range} with ${names}`);
});

/** Answers a line of two ranges as if the first always won, and refuses one without a choice. */
const answer = (line, number) => {
    const sides = line.slice('holdem '.length).split(' -- ')[0].split(' - ').map((it) => combosOf(it));
    const { choices, weight } = choicesOf(sides), all = weight * 43;
    if (!choices) return `spot ${number} rejected line ${number} NoChoice\n`;
    return `spot ${number} holdem choices ${choices} runouts 43 weight ${weight}\n` +
        `hand 1 high win ${all} 100.00 tie 0 0.00 lose 0 0.00\nhand 1 ev 1.000\n` +
        `hand 2 high win 0 0.00 tie 0 0.00 lose ${all} 100.00\nhand 2 ev 0.000\n`;
};

test('the heat has each cell once, and adds up its parts', async () => {
    const spot = { sides: ['AsKs,QQ'], board: ['2c', '7d', '9h', '4s'], dead: ['Ac'] }, whole = new Map();
    const { cost, jobs } = planHeat(spot), add = makeHeat(spot);
    const workers = {
        size: 3,
        stop: () => {},
        run: async ({ input }) => {
            const lines = new TextDecoder().decode(input).trim().split('\n');
            const report = lines.map((line, index) => answer(line, index + 1)).join('');
            return { status: 0, report: new TextEncoder().encode(report) };
        }
    };
    let done = 0;
    await countJobs(workers, jobs(), (job, reads) => {
        done += job.cost;
        for (const [name, it] of add(job, reads)) whole.set(name, it);
    });
    assert.deepEqual([...whole.keys()].sort(), NAMES.flat().sort());
    assert.equal(done, cost);
    assert.deepEqual(whole.get('AA'), { text: '100', part: 1 });
    assert.equal(NAMES.flat().length, 169);
});

test('a count ends with the first failure, and says how long it takes', async () => {
    let runs = 0;
    const run = async () => {
        runs++;
        throw new Error('stopped');
    };
    const jobs = Array.from({ length: 9 }, () => ({ lines: ['x'], cost: 1 }));
    await assert.rejects(countJobs({ size: 2, stop: () => {}, run }, jobs, () => {}), /stopped/);
    assert.equal(runs, 2);
    assert.deepEqual([3, 89, 100, 3700, 7200, 1e6, 1e10].map(durationText),
        ['3 s', '89 s', '2 minutes', '62 minutes', '2 hours', '12 days', '317 years']);
});
