// The games of a spot: how people name them, and how many cards they have.

/** @type {{ [word: string]: string }} */
export const GAMES = {
    holdem: 'holdem', 'hold\'em': 'holdem', texas: 'holdem', nlhe: 'holdem', nlh: 'holdem', nl: 'holdem', lhe: 'holdem',
    he: 'holdem', omaha: 'omaha', plo: 'omaha', plo4: 'omaha', omaha8: 'omaha8', plo8: 'omaha8', o8: 'omaha8',
    stud: 'stud', stud8: 'stud8', razz: 'razz', draw5: 'draw5', lowball27: 'lowball27', triple27: 'triple27'
};

/**
 * How many cards a hand of a game has, at least and at most.
 * @type {{ [game: string]: [number, number] }}
 */
export const SIZES = {
    holdem: [2, 2], omaha: [4, 4], omaha8: [4, 4], stud: [3, 7], stud8: [3, 7], razz: [3, 7], draw5: [0, 5],
    lowball27: [0, 5], triple27: [0, 5]
};

/** @type {{ [game: string]: string }} */
export const GAME_NAMES = {
    holdem: 'Hold’em', omaha: 'Omaha', omaha8: 'Omaha Hi/Lo', stud: 'Stud', stud8: 'Stud Hi/Lo', razz: 'Razz',
    draw5: 'Five card draw', lowball27: '2-7 single draw', triple27: '2-7 triple draw'
};

export const HAS_BOARD = ['holdem', 'omaha', 'omaha8'];

/**
 * Returns how many cards a hand of a game has, in words.
 * @param {string} game
 */
export const sizeText = (game) => {
    const [least, most] = SIZES[game];
    return least === most ? `${least} cards` : `${least} to ${most} cards`;
};

/**
 * Says that some cards are no hand of a game.
 * @param {number} count
 * @param {string} game
 */
export const saysSize = (count, game) => `${count === 1 ? 'is 1 card' : `are ${count} cards`}. A hand of ` +
    `${GAME_NAMES[game]} has ${sizeText(game)}.`;
