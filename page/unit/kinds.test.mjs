import assert from 'node:assert/strict';
import test from 'node:test';
import { reasonOf } from '../src/kinds.mjs';

const wide = (text, isLittle) =>
    Uint8Array.from([...text].flatMap((it) => isLittle ? [it.charCodeAt(0), 0] : [0, it.charCodeAt(0)]));
const ROWS = [
    [new Uint8Array(0), 'an empty file'],
    ['\n \n', 'blank lines'],
    [Uint8Array.from([0x50, 0x4b, 3, 4, 20, 0]), 'zip'],
    ['%PDF-1.7\n', 'PDF'],
    [Uint8Array.from([0xff, 0xfe, ...wide('PokerStars Hand #1', true)]), 'UTF-16'],
    [Uint8Array.from([0xfe, 0xff, ...wide('PokerStars Hand #1', false)]), 'UTF-16'],
    [wide('PokerStars Hand #1: Hold\'em', true), 'UTF-16'],
    [wide('PokerStars Hand #1: Hold\'em', false), 'UTF-16'],
    [Uint8Array.from([1, 2, 0, 0, 5, 9, 9, 9]), 'not text'],
    ['Poker Hand #RC12: Hold\'em No Limit ($1/$2)\n', 'GGPoker'],
    ['***** Hand History for Game 12 *****\n', 'partypoker'],
    ['Winamax Poker - CashGame - HandId: #1\n', 'Winamax'],
    ['Ignition Hand #12 TBL#1\n', 'Ignition'],
    ['<?xml version="1.0"?>\n<session sessioncode="1">', 'iPoker'],
    ['Hand #12-3 - 2020-01-01\n', 'Winning'],
    ['PokerStars Tournament #7, No Limit Hold\'em\n', 'summary'],
    ['Main PokerStars n°12 : Hold\'em\n', 'another language'],
    ['PokerStars - Mano n.º 12\nMano #12', 'PokerStars'],
    ['> PokerStars Hand #1: Hold\'em\n', 'a mail or a forum'],
    ['  PokerStars Hand #1: Hold\'em\n', 'spaces before'],
    ['POKERSTARS HAND #1: HOLD\'EM\n', 'capitals'],
    ['<!doctype html><p>', 'a web page'],
    ['dear diary\n', 'no hand history'],
];

test('a file without a hand has its likely reason', () => {
    for (const [content, reason] of ROWS) {
        const bytes = typeof content === 'string' ? new TextEncoder().encode(content) : content;
        assert.ok(reasonOf(bytes).includes(reason), `${reasonOf(bytes)} for ${reason}`);
    }
});
