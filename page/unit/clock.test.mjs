import assert from 'node:assert/strict';
import test from 'node:test';
import { dayNames, dayOf, readClock, sessions, timeOf } from '../src/clock.mjs';

test('a clock is Eastern time if the header has it in brackets', () => {
    assert.equal(timeOf(readClock('x - 2019/12/31 23:59:59 CET [2019/12/31 17:59:59 ET]')), '2019-12-31 17:59:59');
    assert.equal(timeOf(readClock('x - 2026/11/02 1:30:00 ET')), '2026-11-02 01:30:00');
    assert.equal(timeOf(readClock('x - 2008/07/08 - 11:22:33 (ET)')), '2008-07-08 11:22:33');
});

test('a header without a clock, or with a date that no calendar has, has none', () => {
    for (const header of ['PokerStars Hand #1: x', 'x - 2026/02/30 10:00:00 ET', 'x - 2026/13/01 10:00:00 ET',
             'x - 2026/01/01 24:00:00 ET']) {
        assert.ok(Number.isNaN(readClock(header)), header);
    }
    assert.equal(dayOf(NaN), '');
    assert.equal(timeOf(NaN), '');
});

test('days are named as the clock has them', () => {
    const day = dayNames(), clock = readClock('2026/11/02 23:59:59 ET');
    assert.deepEqual(
        [day(clock), day(clock + 1), day(NaN), day(clock)], ['2026-11-02', '2026-11-03', '', '2026-11-02']);
});

test('a gap above 30 minutes starts a new session, and a hand without a clock is in none', () => {
    assert.deepEqual(sessions([0, 1800, 3601, NaN, 3601]), [1, 1, 2, 0, 2]);
});
