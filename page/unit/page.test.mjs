import assert from 'node:assert/strict';
import test from 'node:test';
import { nearest, thin, ticks } from '../src/axis.mjs';
import { HEADING, resultsTable, shownTable } from '../src/books.mjs';
import { addPart, noHands } from '../src/hands.mjs';
import { inOrder } from '../src/played.mjs';
import { latest } from '../src/latest.mjs';
import { readPart } from '../src/part.mjs';
import { makePool } from '../src/pool.mjs';
import { counted, grouped, many, megabytes, progressOf } from '../src/progress.mjs';
import { makeReader } from '../src/reader.mjs';
import { allInOf, handsOf, records, written } from '../src/reports.mjs';
import { fileOf, made, reporter } from './made.mjs';

test('a late answer never appears under another line', async () => {
    const shown = [];
    const ask = latest({
        clear: () => shown.push('counting'),
        show: (it) => shown.push(it),
        fail: (error) => shown.push(error.message)
    });
    const late = [];
    const slow = ask(() => new Promise((done) => late.push(done)));
    await ask(async () => 'second');
    late[0]('first');
    await slow;
    await ask(async () => { throw new Error('third'); });
    await ask(null);
    assert.deepEqual(shown, ['counting', 'counting', 'second', 'counting', 'third', 'counting']);
});

test('the table for a spreadsheet has a heading, a mark, and no formula', () => {
    const all = [
        made({ number: 1, clock: '2026/11/02 10:00:00', net: 250, even: 100 }),
        made({ number: 2, clock: '2026/11/02 9:00:00', even: NaN }), made({ number: 3, isRejected: true })
    ];
    const hands = noHands();
    hands.sources.push({ path: 'a', file: /** @type {any} */ (null) });
    addPart(hands, readPart(reporter(all), fileOf(all)), 0, 0, 0);
    const lines = [...resultsTable(hands, inOrder(hands))].join('').split('\r\n');
    assert.equal(lines[0], `\uFEFF${HEADING.join(',')}`);
    assert.equal(lines[1], '2026-11-02 09:00:00,2,holdem,holdem No Limit 0.50/1.00,money USD,Ceres,Ann,1.00,,');
    assert.equal(lines[3], '2026-11-02 10:00:00,1,holdem,holdem No Limit 0.50/1.00,money USD,Ceres,Ann,2.50,1.00,1.50');
    assert.equal(lines.length, 6);
    assert.equal(shownTable(['month', 'won'], [['=1+1', '-3'], ['a,"b"', '4']]),
        '\uFEFFmonth,won\r\n\'=1+1,-3\r\n"a,""b""",4\r\n');
});

test('records read back quotes, commas, and line ends', () => {
    assert.deepEqual([...records('paid,1,"a ""b"", c"\nx,,\n')], [['paid', '1', 'a "b", c'], ['x', '', '']]);
    assert.equal(handsOf('hand,1,rejected,line,7,OutOfTurn,seat,3,,,,,\n')[0].cause, 'OutOfTurn seat 3');
    assert.deepEqual([written(-5n, true), written(12345n, true), written(-5n, false)], ['-0.05', '123.45', '-5']);
    const all =
        allInOf('pot,0,gross,9,rake,0,checked,,,,,,\nall-in,turn,runouts,42,,,,,,,,,\npot,0,ev,0.714,,,,,,,,,xena\n');
    assert.deepEqual([all.street, all.parts.get('xena')], ['turn', [{ gross: '9', part: '0.714' }]]);
    assert.equal(allInOf('all-in,none,,,,,,,,,,,\n'), null);
});

test('the axis has round values, and few points show many', () => {
    assert.deepEqual(ticks(-12, 31, 5), [-10, 0, 10, 20, 30]);
    assert.deepEqual(ticks(0, 1, 2), [0, 0.5, 1]);
    const values = Float64Array.from({ length: 1000 }, (it, at) => at === 555 ? 9 : at === 556 ? -9 : 0);
    const kept = thin(0, 1000, (at) => Math.floor(at / 100), values);
    assert.deepEqual(kept.filter((at) => at >= 500 && at < 600), [500, 555, 556, 599]);
    assert.ok(kept.every((it, at) => at === 0 || it > kept[at - 1]) && kept.length <= 40);
    assert.deepEqual([0, 2.4, 2.6, 99].map((x) => nearest([1, 2, 3], x)), [0, 1, 2, 2]);
    assert.deepEqual(['-1234567', '1234.5', '12', '-0.05'].map(grouped), ['-1,234,567', '1,234.5', '12', '-0.05']);
});

test('progress is over bytes, with the time left', () => {
    assert.equal(progressOf(25e6, 100e6, 10), '25%, 25.0 MB of 100.0 MB, about 30 s left');
    assert.equal(progressOf(0, 100e6, 0), '0%, 0 kB of 100.0 MB');
    assert.deepEqual([counted(118800), counted(999), many(1, 'hand'), many(1200, 'hand'), megabytes(1)],
        ['118,800', '999', '1 hand', '1,200 hands', '1 kB']);
});

test('a pool gives each worker one job at a time, survives a failure, and stops', async () => {
    const workers = [];
    const start = () => {
        const worker = {
            ended: false,
            terminate: () => {
                worker.ended = true;
            },
            onmessage: null,
            onerror: null,
            jobs: [],
            postMessage: (message) => {
                if (message.module) {
                    queueMicrotask(() => worker.onmessage({ data: {} }));
                    return;
                }
                worker.jobs.push(message);
                if (message.fails)
                    setTimeout(() => worker.onerror({ message: 'trap' }));
                else if (!message.hangs)
                    setTimeout(
                        () => worker.onmessage({
                            data: message.refused ? { error: 'refused' } : { answer: message.job }
                        }));
            }
        };
        workers.push(worker);
        return worker;
    };
    const pool = makePool(start, 'module', 2);
    assert.deepEqual(await Promise.all([1, 2, 3, 4, 5].map((job) => pool.run({ job }))), [1, 2, 3, 4, 5]);
    assert.equal(workers.length, 2);
    await assert.rejects(pool.run({ fails: true }), /trap/);
    await assert.rejects(pool.run({ refused: true }), /refused/);
    assert.equal(await pool.run({ job: 6 }), 6);
    const hanging = [pool.run({ hangs: true }), pool.run({ hangs: true }), pool.run({ job: 7 })];
    await new Promise((done) => setTimeout(done, 5));
    pool.stop();
    for (const it of hanging) await assert.rejects(it, /stopped/);
    assert.equal(await pool.run({ job: 8 }), 8);
});

test('a drop while others are read waits its turn, and a file without a hand is named', async () => {
    const all = [1, 2, 3].map((number) => made({ number, clock: `2026/11/02 10:00:0${number}` })), hands = noHands();
    const pool = {
        size: 2,
        stop: () => {},
        run: async ({ part }) => {
            await new Promise((done) => setTimeout(done, 2));
            return readPart(reporter(all), part);
        }
    };
    const seen = [], reader = makeReader(hands, /** @type {any} */ (pool), (reading) => seen.push(reading.filesDone));
    const source = (path, bytes) => ({ path, file: /** @type {any} */ (new Blob([bytes])) });
    const first = reader.add([source('a', fileOf([all[0]])), source('gg.txt', 'Poker Hand #RC1: x\n')]);
    const second = reader.add([
        source('b', fileOf([all[1], all[2]])), {
            path: 'gone',
            file: /** @type {any} */ ({
                size: 3,
                slice: () => ({
                    arrayBuffer: async () => {
                        throw new Error('gone');
                    }
                })
            })
        }
    ]);
    await Promise.all([first, second]);
    assert.deepEqual(Array.from(inOrder(hands), (hand) => hands.numbers[hand]), ['1', '2', '3']);
    assert.deepEqual(
        reader.reading.missed.map(({ path, isFailed }) => [path, isFailed]).sort(),
        [['gg.txt', false], ['gone', true]]);
    assert.deepEqual([reader.reading.files, reader.reading.filesDone, reader.reading.isReading], [4, 4, false]);
    assert.equal(reader.reading.bytesDone, reader.reading.bytes);
});

test('a stop before the sizes of files are known forgets the files', async () => {
    const all = [1, 2].map((number) => made({ number })), hands = noHands();
    const pool = { size: 1, stop: () => {}, run: async ({ part }) => readPart(reporter(all), part) };
    const reader = makeReader(hands, /** @type {any} */ (pool), () => {});
    const source = (it) => ({ path: 'a', file: /** @type {any} */ (new Blob([fileOf([it])])) });
    const first = reader.add([source(all[0])]);
    reader.stop();
    await first;
    const other = source(all[1]);
    await reader.add([other]);
    assert.deepEqual([hands.numbers, reader.reading.files, reader.reading.bytes], [['2'], 1, other.file.size]);
    assert.deepEqual([reader.reading.isReading, reader.reading.isStopped], [false, false]);
});
