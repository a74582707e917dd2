// Where a player sits, by who posted the blinds and by the line that names the button's seat.

/**
 * The names of positions. A column has their places in this list. The first is of players without one, as in a stud
 * game.
 */
export const POSITIONS = ['', 'BTN', 'SB', 'BB', 'UTG', 'MP', 'HJ', 'CO'];

/** @type {{ [position: string]: string }} */
export const POSITION_WORDS = {
    '': 'no position', BTN: 'button', SB: 'small blind', BB: 'big blind', UTG: 'under the gun', MP: 'middle position',
    HJ: 'hijack', CO: 'cutoff'
};

const [NONE, BTN, SB, BB, UTG, MP, HJ, CO] = POSITIONS.keys();
const SEATS = 10;

/** @param {string} text */
const posterOf = (text) => ({
    small: (/^(.*): posts small blind /m.exec(text) || ['', ''])[1],
    big: (/^(.*): posts big blind /m.exec(text) || ['', ''])[1]
});

/**
 * Returns the position of each player. The small and the big blind are those who post them first. The others are
 * counted back from the button, whether its seat plays or not: cutoff, hijack, and so on up to the first left of the
 * blinds, who is under the gun if there are three or more. With two players the button posts the small blind, and is
 * the button. If the text has no button or no big blind, nobody has a position.
 * @param {string} text
 * @param {Map<number, string>} seats
 * @param {number} button  its seat, or 0
 * @param {string[]} names  who plays
 */
export const positionsOf = (text, seats, button, names) => {
    const { small, big } = posterOf(text), positions = new Map(names.map((name) => [name, NONE]));
    if (!button || !big) return positions;
    const playing = new Set(names), around = [...seats].filter(([, name]) => playing.has(name))
        .map(([seat, name]) => ({ name, after: (seat - button + SEATS) % SEATS })).sort((a, b) => a.after - b.after);
    if (positions.has(small)) positions.set(small, SB);
    if (positions.has(big)) positions.set(big, BB);
    if (around.length && around[0].after === 0) positions.set(around[0].name, BTN);
    const others = around.filter(({ name }) => positions.get(name) === NONE), { length } = others;
    others.forEach(({ name }, at) => {
        const back = length - at, place = back === 1 ? CO : back === 2 ? HJ : at === 0 ? UTG : MP;
        positions.set(name, place);
    });
    return positions;
};
