// The streets of a hand by its text: on which one it came to an all-in, the board, and the cards that were shown.

/**
 * Returns the board at the end, from the summary or from the last marker of a street; of two boards the first.
 * @param {string} text
 */
export const boardOf = (text) => {
    const board = /^(?:FIRST )?Board \[([^\]]*)\]/m.exec(text);
    if (board) return board[1];
    const marked = [...text.matchAll(/^\*\*\* (?:FIRST )?(?:FLOP|TURN|RIVER) \*\*\* (.*)/gm)].pop();
    return marked ? marked[1].replace(/[[\]]/g, '').trim() : '';
};

/**
 * Returns the cards that each player showed, or was dealt.
 * @param {string} text
 */
export const cardsOf = (text) => {
    /** @type {Map<string, string>} */
    const cards = new Map();
    for (const line of text.split(/\r?\n/)) {
        const dealt = /^Dealt to (.*?) \[([^\]]*)\]/.exec(line), shown = /^(.*): shows \[([^\]]*)\]/.exec(line);
        if (shown) cards.set(shown[1], shown[2]);
        else if (dealt && dealt[2].includes(' ') && !cards.has(dealt[1])) cards.set(dealt[1], dealt[2]);
    }
    return cards;
};

const MARKER = /^\*\*\* (?:(?:FIRST|SECOND) )?(.*?) \*\*\*/, ACT = /: (?:folds|checks|calls|bets|raises)\b/;
/** @type {{ [marker: string]: string }} */
const STREETS = {
    'HOLE CARDS': 'preflop', FLOP: 'flop', TURN: 'turn', RIVER: 'river', '3rd STREET': '3rd', '4th STREET': '4th',
    '5th STREET': '5th', '6th STREET': '6th', 'DEALING HANDS': 'predraw', DRAW: 'draw', 'FIRST DRAW': '1st-draw',
    'SECOND DRAW': '2nd-draw', 'THIRD DRAW': '3rd-draw'
};

/**
 * Returns the street on which the hand came to an all-in with cards to come, or an empty text: the street of the last
 * act, if somebody was all-in and another street follows. The program finds it by the rules; this is for lists, where
 * it isn't asked.
 * @param {string} text
 */
export const allInStreet = (text) => {
    if (!text.includes(' and is all-in')) return '';
    let street = '', last = '', isAllIn = false;
    for (const line of text.split('\n')) {
        const marker = MARKER.exec(line);
        if (marker && marker[1] === 'SUMMARY') break;
        if (marker && STREETS[marker[1]]) street = STREETS[marker[1]];
        else if (ACT.test(line)) {
            last = street;
            if (/ and is all-in\s*$/.test(line)) isAllIn = true;
        }
    }
    return isAllIn && last !== street ? last : '';
};
