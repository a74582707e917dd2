// Hands for the tests: a text, and reports as the program prints them.

/**
 * A hand of two players at a table: Ann nets an amount, and Ben loses it.
 * @param {{ number: number | string, clock?: string, net?: number, even?: number | null, table?: string, isRejected?:
 *     boolean, isCashed?: boolean, isShown?: boolean, stakes?: string, game?: string, before?: string,
 *     cards?: string, board?: string }} it
 */
export const made = (it) => ({
    net: 100,
    even: null,
    clock: '',
    table: 'Ceres',
    isRejected: false,
    isCashed: false,
    isShown: true,
    stakes: '$0.50/$1.00 USD',
    game: 'Hold\'em No Limit',
    before: '',
    cards: 'As Ah',
    board: '',
    ...it
});

/** @param {ReturnType<typeof made>} it */
export const textOf = ({ number,
    clock,
    table,
    isCashed,
    isShown,
    stakes,
    game,
    before,
    cards,
    board }) => [`PokerStars Hand #${number}: ${before}${game} (${stakes})${clock ? ` - ${clock} ET` : ''}`,
    `Table '${table}' 6-max Seat #1 is the button`, 'Seat 1: Ann ($50 in chips)', 'Seat 2: Ben ($50 in chips)',
    'Ann: posts small blind $0.50', 'Ben: posts big blind $1',
    '*** HOLE CARDS ***', `Dealt to Ann [${cards}]`, ...isShown ? ['*** SHOW DOWN ***'] : ['Ben: folds'],
    ...isCashed ? ['Ann cashed out the hand for $9.20'] : [], '*** SUMMARY ***',
    ...board ? [`Board [${board}]`] : [], '', '']
                    .join('\n');

const money = (/** @type {number} */ cents) =>
    `${cents < 0 ? '-' : ''}${Math.floor(Math.abs(cents) / 100)}.${String(Math.abs(cents) % 100).padStart(2, '0')}`;

/**
 * Returns what the program would print for made hands, in place of the program.
 * @param {ReturnType<typeof made>[]} all
 */
export const reporter = (all) => (/** @type {string} */ mode, /** @type {Uint8Array} */ bytes) => {
    const numbers =
        [...new TextDecoder().decode(bytes).matchAll(/^\uFEFF?PokerStars Hand #([0-9]+)/gm)].map((it) => it[1]);
    return numbers.map((number) => {
        const it = /** @type {ReturnType<typeof made>} */ (all.find((hand) => String(hand.number) === number));
        if (it.isRejected) return `hand,${number},rejected,line,7,Chips,84.20,2.50,,,,,\n`;
        const head = `hand,${number},accepted,holdem,rake,0.00,,,,,,,\n`;
        if (mode === 'settle') return `${head}pot,0,gross,2.00,rake,0.00,checked,,,,,,\n`;
        const row = (/** @type {string} */ name, /** @type {number} */ sign) =>
            `result,had,50.00,put,1.00,got,${sign > 0 ? '2.00' : '0.00'},net,${money(sign * it.net)},even,` +
            `${
                it.even === null            ? money(sign * it.net)
                    : Number.isNaN(it.even) ? 'unknown'
                                            : money(sign * it.even)},,${name}\n`;
        return head + row('Ann', 1) + row('Ben', -1);
    }).join('');
};

/** @param {ReturnType<typeof made>[]} all */
export const fileOf = (all) => new TextEncoder().encode(all.map(textOf).join(''));
