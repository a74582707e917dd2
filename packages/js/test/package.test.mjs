// The calls of the package over dist/equity.mjs. Expected values are counted by hand or by the native program.
import assert from 'node:assert/strict';
import { spawnSync } from 'node:child_process';
import { readFileSync, readdirSync } from 'node:fs';
import { fileURLToPath } from 'node:url';
import test from 'node:test';
import { EquityError, hands, ranges, run, spot, spots } from '../equity.mjs';

const top = fileURLToPath(new URL('../../../', import.meta.url));
const program = process.env.EQUITY;
const examples = readdirSync(`${top}examples`).filter((it) => it.endsWith('.txt')).map((it) => `${top}examples/${it}`);
const histories = examples.filter((it) => readFileSync(it, 'latin1').includes('PokerStars '));

test('a spot has exact counts and equities', async () => {
    const { game, runouts, hands: [aces, kings] } = await spot('holdem As Ah - Ks Kh -- 2c 7d 9h 4s');
    assert.deepEqual([game, runouts], ['holdem', 44n]);
    // the two kings left make a set; nothing else beats the aces
    assert.deepEqual(aces, { high: { win: 42n, tie: 0n, lose: 2n }, low: null, ev: '0.955', equity: [21n, 22n] });
    assert.deepEqual(kings.equity, [1n, 22n]);
});

test('ranges have choices and weights', async () => {
    const { choices, weight, runouts, hands: [first] } = await ranges('holdem AsAh - KsKh,QcQd:2 -- 2c 7d 9h 4s');
    assert.deepEqual([choices, weight, runouts, first.high.win], [2n, 3n, 44n, 126n]);
});

test('three hands that tie have exact equities, and Hi/Lo with ties has none', async () => {
    // the board is a straight to the ten, and nobody has a jack or a six and a seven of use: all three share the pot
    const three = await spot('holdem 2c 2d - 3c 3d - 4c 4d -- 6h 7s 8h 9s Tc');
    assert.deepEqual(three.hands.map((it) => it.equity), [[1n, 3n], [1n, 3n], [1n, 3n]]);
    const split = await spot('omaha8 As 2s Kd Qd - Ah 3h Kc Jc -- 7c 4d Th');
    assert.equal(split.hands[0].equity, null);
});

test('lines without an answer have their error', async () => {
    const codes = [];
    for await (const it of spots(['holdem As Ah - As Kh', 'stud As Ah Kd - 2c 2d 7h', 'holdem As Ah - Ks Kh -- 2c 7d 9h 4s'])) {
        codes.push(it instanceof EquityError ? `${it.code} ${it.cause}` : it.runouts);
    }
    assert.deepEqual(codes, ['REJECTED TwiceCard As', 'REFUSED above 200000000 runouts', 44n]);
    await assert.rejects(spot(' '), { code: 'USAGE' });
    await assert.rejects(spot('holdem As Ah - Ks Kh\nholdem'), { code: 'USAGE' });
    await assert.rejects(run('deal', 'text', new Uint8Array(0)), { code: 'USAGE' });
    await assert.rejects(hands('totals', new Uint8Array(0)).next(), { code: 'USAGE' });
});

test('hands of a stream are those of the whole input, with lines of the whole input', async () => {
    const whole = Buffer.concat(histories.map((it) => readFileSync(it)));
    const collect = async (input) => {
        const found = [];
        for await (const { number, accepted, line, cause, rows } of hands('settle', input)) {
            found.push([number, accepted, line, cause, rows.map(({ words, name }) => [...words, name].join(' '))]);
        }
        return found;
    };
    async function* chunks() {
        for (let at = 0; at < whole.length; at += 997) yield whole.subarray(at, at + 997);
    }
    const found = await collect(chunks());
    assert.ok(found.length > 10);
    assert.deepEqual(found, await collect(new Blob([whole])));
    assert.deepEqual(found, await collect(whole));
    // 30 times as long, so that it goes in pieces
    const long = Buffer.concat(Array.from({ length: 30 }, () => whole));
    const many = await collect(long);
    assert.equal(many.length, 30 * found.length);
    const lines = BigInt(whole.toString('latin1').split('\n').length - 1);
    const at = found.findIndex((it) => !it[1]);
    assert.equal(many[29 * found.length + at][2], found[at][2] + 29n * lines);
});

test('every report is that of the native program', { skip: program ? false : 'EQUITY names no program' }, async () => {
    let count = 0;
    for (const file of examples) {
        const modes = histories.includes(file) ? ['check', 'audit', 'streets', 'results', 'settle', 'totals', 'balance'] : ['spots', 'ranges'];
        for (const mode of modes) for (const form of ['text', 'csv']) {
            const input = readFileSync(file);
            const there = spawnSync(program, [mode, '--format', form], { input, maxBuffer: 1 << 28 });
            const { status, report } = await run(mode, form, input);
            assert.equal(status, there.status, `${mode} ${form} ${file}`);
            assert.ok(Buffer.from(report).equals(there.stdout), `${mode} ${form} ${file}`);
            count++;
        }
    }
    assert.ok(count > 50);
});
