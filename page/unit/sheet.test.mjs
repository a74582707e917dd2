import assert from 'node:assert/strict';
import { readFileSync } from 'node:fs';
import test from 'node:test';
import { CAUSES, causeOf } from '../src/causes.mjs';
import { gapOf, ordersOf, rulesOf, sayer } from '../src/settling.mjs';
import { settlementsOf } from '../src/reports.mjs';
import { linesOf, sheetOf } from '../src/sheet.mjs';

const context = { say: (it) => `$${it}`, seat: (it) => `Seat ${it}`, isCashed: false };
const hands = readFileSync(new URL('../../examples/dispute.txt', import.meta.url), 'utf8').split(/(?=^PokerStars )/m);

test('every cause of a hand in FORMATS has a sentence and a rule', () => {
    const formats = readFileSync(new URL('../../docs/FORMATS.md', import.meta.url), 'utf8');
    const tables = formats.slice(formats.indexOf('## Hand histories'), formats.indexOf('## Words of a spot line'));
    const causes =
        new Set([...tables.matchAll(/^\| `([A-Z][a-z][A-Za-z]*)` \| (?!`[a-z0-9]*` \|)/gm)].map((it) => it[1]));
    assert.ok(causes.size >= 26, String(causes.size));
    for (const cause of causes) {
        const it = causeOf(`${cause} seat 3 due 325 got 0`, context);
        assert.ok(CAUSES[cause] && it.sentence.length > 20 && it.rule.length > 20 && !it.sentence.includes('undefined'),
            cause);
    }
});

test('a cash-out is named as Chips and as BadAction', () => {
    for (const cause of ['Chips 84.20 2.50', 'BadAction']) {
        const it = causeOf(cause, { ...context, isCashed: true });
        assert.equal(it.short, 'cashed out');
        assert.match(it.sentence, /^A player cashed out/);
    }
    assert.doesNotMatch(causeOf('Chips 84.20 2.50', context).sentence, /cashed/);
    assert.equal(causeOf('OutOfTurn seat 3', { ...context, isCashed: true }).short, 'out of turn');
});

test('an unknown cause is named as it is', () => assert.match(causeOf('Later 5', context).sentence, /Later 5/));

test('the sheet of a pot that was paid wrongly says who gets what', () => {
    const it = sheetOf(hands[1], 15,
        'hand,7202,rejected,line,44,Split,seat,3,due,325,got,0,\npot,0,gross,325,rake,0,checked,,,,,,\n' +
            'part,0,1,high,units,325,odd,0,,,,,sam\nshare,0,due,325,got,0,,,,,,,sam\n' +
            'share,0,due,0,got,325,,,,,,,tess\nsettle,325,,,,,,,,,,,sam\nsettle,-325,,,,,,,,,,,tess\n');
    assert.deepEqual([it.finding.title, it.finding.sentence, it.finding.at], [
        'A pot wasn\'t paid as the rules give it.', 'sam is due 325 of a pot and got 0.',
        'Found at the end of the hand, line 44.'
    ]);
    assert.deepEqual(it.orders, { isNeeded: true, sentences: ['sam is to get 325.', 'tess is to give back 325.'] });
    assert.deepEqual(it.pots[0].shares, [
        { name: 'sam', cards: 'Jd 3c', due: '325', got: '0', gap: '-325' },
        { name: 'tess', cards: 'Th Td', due: '0', got: '325', gap: '+325' }
    ]);
    assert.equal(it.lines[it.lines.length - 1].text, '(a blank line, the last of the hand)');
    assert.equal(it.board, 'Ts 9h 8c 7d 2s');
    assert.match(it.rule, /One unit/);
});

test('a line that departs is marked, and a hand that is cut off is found at its end', () => {
    const call = sheetOf(hands[2], 45, 'hand,7203,rejected,line,53,CallAmount,1.00,,,,,,\n');
    assert.equal(call.finding.title, 'Line 53 departs from the rules.');
    assert.match(call.finding.sentence, /which is \$1\.00/);
    assert.deepEqual(call.lines.filter((it) => it.isMarked).map((it) => it.text), ['cleo: calls $2']);
    const end = sheetOf(hands[2], 45, 'hand,7203,rejected,line,53,Unfinished,,,,,,,\n');
    assert.deepEqual(
        [end.finding.title, end.finding.at], ['The hand isn\'t finished.', 'Found at the end of the hand, line 53.']);
});

test('a difference within the unit, or one that cancels out, needs nothing', () => {
    const hand = (rows) => settlementsOf(rows)[0], say = sayer('money USD');
    const within = hand(
        'hand,1,accepted,holdem,rake,2.25,twice,,,,,,\npot,0,gross,82.10,rake,2.25,checked,,,,,,\n' +
        'share,0,due,39.92,got,39.93,,,,,,,ruth\n' +
        'share,0,due,39.93,got,39.92,,,,,,,tom\nsettle,-0.01,,,,,,,,,,,ruth\nsettle,0.01,,,,,,,,,,,tom\n');
    assert.deepEqual(ordersOf(within, say).isNeeded, false);
    assert.match(ordersOf(within, say).sentences[0], /Nothing needs to be settled/);
    const cancels = hand(
        'hand,1,rejected,line,9,Split,seat,1,due,5,got,9,\npot,0,gross,9,rake,0,checked,,,,,,\n' +
        'share,0,due,5,got,9,,,,,,,a\nshare,0,due,4,got,0,,,,,,,b\n' +
        'pot,1,gross,9,rake,0,checked,,,,,,\nshare,1,due,4,got,0,,,,,,,a\nshare,1,due,5,got,9,,,,,,,b\n');
    assert.match(ordersOf(cancels, say).sentences[0], /cancel out. Nothing needs to be settled/);
    const right =
        hand('hand,1,accepted,holdem,rake,0,,,,,,,\npot,0,gross,9,rake,0,checked,,,,,,\nshare,0,due,9,got,9,,,,,,,a\n');
    assert.match(ordersOf(right, say).sentences[0], /Every pot was paid/);
    const unseen =
        hand('hand,1,accepted,holdem,rake,0,,,,,,,\npot,0,gross,9,rake,0,unseen,,,,,,\npaid,9,,,,,,,,,,,a\n');
    assert.deepEqual([unseen.pots[0].shares[0].due, ordersOf(unseen, say).isNeeded], [null, false]);
});

test('the rules of a pot: sides, boards, odd units', () => {
    const pot = {
        number: 0,
        gross: '9',
        rake: '0',
        state: 'checked',
        shares: [],
        parts: [
            { board: '1', side: 'high', units: '3', isOdd: true, name: 'a' },
            { board: '1', side: 'high', units: '2', isOdd: false, name: 'b' },
            { board: '1', side: 'low', units: '4', isOdd: false, name: 'b' }
        ]
    };
    const { rules, winners } = rulesOf(pot, (it) => it);
    assert.deepEqual(winners, ['High: a 3, b 2, with the odd unit for a.', 'Low: b 4.']);
    assert.equal(rules.length, 4);
    assert.match(rulesOf({ ...pot, state: 'unseen' }, (it) => it).rules[0], /nobody can say/);
    assert.match(rulesOf({ ...pot, state: 'unfit' }, (it) => it).rules[0], /only the sums/);
    assert.match(rulesOf({ ...pot, parts: [] }, (it) => it).rules[0], /only one player/);
});

test('amounts have their currency, and differences a sign', () => {
    assert.deepEqual(
        [
            sayer('money USD')('-12.50'), sayer('money EUR')('1.00'), sayer('money CAD')('1.00'), sayer('chips')('325'),
            sayer('money')('1.00')
        ],
        ['-$12.50', '€1.00', '1.00 CAD', '325', '1.00']);
    assert.deepEqual(
        [
            gapOf({ due: '39.92', got: '39.93' }), gapOf({ due: '325', got: '0' }), gapOf({ due: '5', got: '5' }),
            gapOf({ due: null, got: '5' })
        ],
        ['+0.01', '-325', '0', '']);
});

test('carriage returns and blank lines at the end aren\'t shown', () => {
    assert.deepEqual(linesOf('a\r\nb\r\n\r\n', 5, 0).map(({ number, text }) => [number, text]), [[5, 'a'], [6, 'b']]);
});
