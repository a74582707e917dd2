import assert from 'node:assert/strict';
import test from 'node:test';
import { piecesOf } from '../src/pieces.mjs';
import { boardOf, cardsOf } from '../src/streets.mjs';
import { cut, facts, lastHand, numbered, stakesOf, unitOf } from '../src/texts.mjs';

const bytesOf = (text) => new TextEncoder().encode(text);

test('hands begin at header lines, with a mark or carriage returns too', () => {
    const text =
        '\uFEFFPokerStars Hand #1: a\r\nx\r\n\r\nPokerStars Zoom Hand #2: b\n' +
        'PokerStars is a site\nPokerStars Game #3: c';
    const { places, newlines } = cut(bytesOf(text));
    assert.deepEqual(places.map(({ line }) => line), [1, 4, 6]);
    assert.equal(newlines, 5);
    assert.equal(places[2].end, bytesOf(text).length);
    assert.equal(lastHand(bytesOf(text)), places[2].start);
    assert.equal(lastHand(bytesOf('PokerStars Hand #1: a\nx\n')), -1);
});

test('stakes are those behind the first game with a limit', () => {
    assert.deepEqual(
        stakesOf('PokerStars Hand #1: Tournament #7, $4.40+$0.60 USD Hold\'em No Limit - Level V (50/100)'),
        { game: 'Hold\'em', limit: 'No Limit', stakes: '50/100', currency: '', isMoney: false });
    assert.deepEqual(stakesOf('PokerStars Hand #1:  Omaha Hi/Lo Pot Limit (€1/€2)'),
        { game: 'Omaha Hi/Lo', limit: 'Pot Limit', stakes: '1/2', currency: 'EUR', isMoney: true });
    assert.equal(stakesOf('PokerStars Hand #1: 6-Max Badugi').isMoney, null);
    assert.deepEqual([unitOf(true, 'USD'), unitOf(true, ''), unitOf(false, '')], ['money USD', 'money', 'chips']);
});

test('names of seat lines may contain brackets, and seats after the cards don\'t count', () => {
    const it = facts(
        'PokerStars Hand #1: x\nTable \'A (b)\' 6-max Seat #3 is the button\n' +
        'Seat 3: a (9 in chips) ($5 in chips) is sitting out\n' +
        'Seat 4: b ($5 in chips)\n*** HOLE CARDS ***\nSeat 5: c ($5 in chips)\na (9 in chips): folds\n' +
        'b cashed out the hand for $9.20\n*** SHOW DOWN ***\n');
    assert.deepEqual([...it.seats], [[3, 'a (9 in chips)'], [4, 'b']]);
    assert.deepEqual([it.button, it.table, it.isCashed, it.hasShowdown, [...it.folded]],
        [3, 'A (b)', true, true, ['a (9 in chips)']]);
});

test('board and cards are read from the whole text', () => {
    const text =
        '*** FLOP *** [2c 3d 4h]\n*** TURN *** [2c 3d 4h] [5s]\nDealt to a [As Ah]\nb: shows [Ks Kh] (a pair)\n';
    assert.equal(boardOf(text), '2c 3d 4h 5s');
    assert.equal(boardOf(`${text}Board [2c 3d 4h 5s 6c]\n`), '2c 3d 4h 5s 6c');
    assert.deepEqual([...cardsOf(text)], [['a', 'As Ah'], ['b', 'Ks Kh']]);
});

test('a text behind empty lines has the lines of its file', () => {
    assert.equal(new TextDecoder().decode(numbered(bytesOf('a\nb'), 4)), '\n\n\na\nb');
});

test('pieces end where a hand begins, and have all bytes', async () => {
    const hands =
        Array.from({ length: 40 }, (it, at) => `PokerStars Hand #${at}: x\n${'chat\n'.repeat(at % 7 * 9)}`).join('');
    for (const text of [hands, `before\nany hand\n\n${hands}`, 'no hand\n'.repeat(390), 'x'.repeat(2500), '']) {
        const bytes = bytesOf(text);
        for (const size of [256, 333, 1000, 1 << 20]) {
            let all = '', at = 0;
            for await (const it of piecesOf(async (from, to) => bytes.slice(from, to), bytes.length, size)) {
                assert.equal(it.start, at);
                at += it.bytes.length;
                const piece = new TextDecoder().decode(it.bytes);
                assert.ok(all === '' || piece.startsWith('PokerStars') || !all.includes('PokerStars'), piece);
                all += piece;
            }
            assert.equal(all, text);
        }
    }
});
