import assert from 'node:assert/strict';
import test from 'node:test';
import { readTyped } from '../src/typed.mjs';
import { FAULTS, LINES } from './typed.table.mjs';

test('eighty lines and more as people type them are lines of the program, or have a word that is named', () => {
    assert.ok(LINES.length + FAULTS.length >= 80, `${LINES.length} and ${FAULTS.length} lines`);
    for (const [typed, mode, line] of LINES) {
        const it = readTyped(typed);
        assert.deepEqual([it.mode, it.line, it.fault], [mode, line, null], typed);
    }
    for (const [typed, word, says] of FAULTS) {
        const { line, fault } = readTyped(typed);
        assert.equal(line, '', typed);
        assert.equal(fault?.word, word, typed);
        assert.match(fault.says, says, typed);
    }
});

test('a line of the program is understood as itself', () => {
    for (const [, mode, line] of LINES) {
        const it = readTyped(line);
        assert.deepEqual([it.mode, it.line], [mode, line]);
    }
});

test('no line has no fault, and an unfinished one keeps what is there', () => {
    assert.deepEqual([readTyped('  ').isEmpty, readTyped('').fault], [true, null]);
    const { sides, board, fault } = readTyped('TT+ vs on 2c 7d 9h');
    assert.deepEqual([sides.map(({ range }) => range), board.length], [['TT+', ''], 3]);
    assert.match(fault?.says || '', /Player 2 has no hand yet/);
});
