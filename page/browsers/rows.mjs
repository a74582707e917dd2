// What the tests in the browsers share: made files, and what is expected of them.

import { readFileSync } from 'node:fs';

/** Returns a history with other hand numbers. */
export const renumbered = (text, from, to) => text.replaceAll(`#${from}`, `#${to}`);

/** Names and texts as somebody hostile writes them, a file that ends in the middle of a hand, and one with no hand. */
export const hostile = (session) => ({
    'hostile.txt': renumbered(session.replaceAll('lou', '<img src=x onerror=globalThis.hurt=1>').replaceAll('max', '"a, ""b'), '7300000', '7900000'),
    'cut.txt': renumbered(session, '7300000', '7800000').slice(0, 1500),
    'windows.txt': `\uFEFF${renumbered(session, '7300000', '7850000').replaceAll('\n', '\r\n')}`,
    'none.txt': 'no hand\n',
});

/** Returns a session at another day, table, and hour, with numbers of its own. */
const moved = (session, { series, day, hour, table, from = 10 }) => {
    let minute = 0;
    return renumbered(session, '7300000', `9${String(series).padStart(6, '0')}`).replace(/\d{4}\/\d\d\/\d\d \d+:\d\d:\d\d/g, () => `${day} ${hour}:${String(from + minute++ * 3).padStart(2, '0')}:00`)
        .replace(/^Table '[^']*'/gm, `Table '${table}'`);
};

/** A month of twelve evenings at two tables. The names of the files aren't in the order of time. */
export const month = (session) => Object.fromEntries(Array.from({ length: 24 }, (_, at) => {
    const day = `2026/10/${String(1 + 2 * (at >> 1)).padStart(2, '0')}`, table = at % 2 ? 'Ceres' : 'Vesta';
    return [`${table} ${(at * 7) % 24}.txt`, moved(session, { series: at + 1, day, hour: 20 + at % 2, table })];
}));

/** Two tables of one evening that goes on past midnight. */
export const midnight = (session) => ({
    'A.txt': moved(session, { series: 101, day: '2026/11/02', hour: 23, from: 45, table: 'A' }) + moved(session, { series: 102, day: '2026/11/03', hour: 0, from: 5, table: 'A' }),
    'B.txt': moved(session, { series: 103, day: '2026/11/02', hour: 23, from: 46, table: 'B' }) + moved(session, { series: 104, day: '2026/11/03', hour: 0, from: 6, table: 'B' }),
});

/** Four files, of which three have no hand. */
export const mixed = (session) => ({
    'session.txt': session,
    'wide.txt': Buffer.concat([Buffer.from([0xff, 0xfe]), Buffer.from(session, 'utf16le')]),
    'gg.txt': session.replaceAll('PokerStars Hand #', 'Poker Hand #RC'),
    'some.zip': Buffer.from([0x50, 0x4b, 3, 4, 20, 0, 0, 0, 8, 0, 1, 2, 3]),
});

/** The first hand of a session, whose winner cashed out: nobody collects the pot. */
export const cashedOut = (session) => {
    const [hand] = session.split(/(?=^PokerStars )/m).filter((it) => it.startsWith('PokerStars')), name = /^(.*) collected /m.exec(hand)[1];
    return hand.replace(/^.* collected .*\n/m, `${name} cashed out the hand for $80.00\n`);
};

/** A hand with 200 lines of chat, some of them long. */
export const chat = (session) => {
    const [hand] = renumbered(session, '7300000', '7600001').split(/(?=^PokerStars )/m).filter((it) => it.startsWith('PokerStars'));
    const said = Array.from({ length: 200 }, (_, at) => `lou said, "line ${at} ${'of many words '.repeat(at % 20)}"\n`).join('');
    return hand.replace('*** HOLE CARDS ***\n', `*** HOLE CARDS ***\n${said}`);
};

/** Returns some files in another order, the same each time. */
export const shuffled = (files) => files.map((it, at) => [(at * 7919 + 13) % 101, it]).sort((a, b) => a[0] - b[0]).map(([, it]) => it);

/** Returns the lines of a hand of some files. */
export const linesOfHand = (files, number) => files.flatMap((it) => readFileSync(it, 'utf8').split(/(?=^PokerStars )/m)).find((it) => it.startsWith('PokerStars') && it.includes(`#${number}:`))
    .split('\n').filter((it) => it.trim());

/** Returns each hand of a text once, by its number. */
export const onceOf = (whole) => {
    const seen = new Set(), once = [];
    for (const text of whole.split(/(?=^PokerStars )/m)) {
        const number = /#([0-9]+)/.exec(text)?.[1];
        if (number && !seen.has(number)) { seen.add(number); once.push(text); }
    }
    return once;
};

/** Returns what a name won after each hand, in order of clock and number, by the program's results of each hand alone. */
export const monthSums = (texts, results, name) => {
    const hands = texts.flatMap((it) => it.split(/(?=^PokerStars )/m)).filter((it) => it.startsWith('PokerStars')).map((text) => {
        const [, number] = /#([0-9]+)/.exec(text), [clock] = /\d{4}\/\d\d\/\d\d \d+:\d\d:\d\d/.exec(text);
        const [row] = results(text).split('\n').map((it) => it.split(',')).filter((it) => it[0] === 'result' && it[12] === name);
        return { number, clock: clock.replace(/ (\d):/, ' 0$1:'), net: row ? Math.round(Number(row[8]) * 100) : null };
    }).filter((it) => it.net !== null);
    hands.sort((a, b) => a.clock < b.clock ? -1 : a.clock > b.clock ? 1 : Number(a.number) - Number(b.number));
    let sum = 0;
    return hands.map(({ net }) => (sum += net) / 100);
};

/** Returns the rows of a table for a spreadsheet, by the names of its heading. */
export const table = (text) => {
    const [heads, ...rows] = text.replace(/^\uFEFF/, '').trim().split('\r\n').map((line) => [...line.matchAll(/(?:^|,)(?:"((?:[^"]|"")*)"|([^,]*))/g)].map((it) => it[1] === undefined ? it[2] : it[1].replaceAll('""', '"')));
    return rows.map((row) => Object.fromEntries(heads.map((head, at) => [head, row[at]])));
};

/** An expression for the sums of a name over all units of money, or in chips, as a record of `balance` has them. */
export const sumsOf = (name, isMoney) => `(() => { const { hands, order } = page.choose(), units = page.unitsOf(hands, order, ${JSON.stringify(name)}).filter((it) => it.startsWith('money') === ${isMoney});
    const sum = page.sumOf(hands, units.flatMap((unit) => page.playedBy(hands, order, ${JSON.stringify(name)}, unit)));
    return [String(sum.hands), page.written(sum.got, ${isMoney}), page.written(sum.net, ${isMoney}), page.written(sum.even, ${isMoney}), String(sum.unknown)].join(' '); })()`;

/** An expression for the colors of the sheet in print, other than black, white, and none. */
export const COLORS = `(() => { const found = new Set(); for (const it of document.querySelectorAll('#sheet, #sheet *')) { const style = getComputedStyle(it);
    for (const key of ['color', 'backgroundColor', 'borderLeftColor', 'borderBottomColor', 'outlineColor']) { const [r, g, b, a = 1] = style[key].match(/[0-9.]+/g).map(Number);
        if (a > 0 && (r !== g || g !== b) && !(key !== 'color' && key !== 'backgroundColor' && style.borderStyle === 'none' && style.outlineStyle === 'none')) found.add(it.tagName + ' ' + key + ' ' + style[key]); } }
    return [...found]; })()`;
