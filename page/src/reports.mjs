// The records of a report and what they say of hands. Amounts are whole units, hundredths or chips, as BigInt, so sums
// are exact.

/**
 * Yields the records of a report in CSV: 13 fields each, the last a name, which may be in quotes and contain commas and
 * line ends.
 * @param {string} text
 * @returns {Generator<string[]>}
 */
export function* records(text) {
    /** @type {string[]} */
    let fields = [];
    let field = '', isQuoted = false;
    for (let at = 0; at < text.length; at++) {
        const it = text[at];
        if (isQuoted) {
            if (it !== '"') field += it;
            else if (text[at + 1] === '"') { field += '"'; at++; }
            else isQuoted = false;
        } else if (it === '"') isQuoted = true;
        else if (it === ',') { fields.push(field); field = ''; }
        else if (it === '\n') { fields.push(field); yield fields; fields = []; field = ''; }
        else field += it;
    }
}

/** @param {string} text */
export const units = (text) => BigInt(text.replace('.', ''));

/** @param {string} text */
export const isMoney = (text) => text.includes('.');

/**
 * Returns an amount as the report writes it.
 * @param {bigint} value
 * @param {boolean} money
 */
export const written = (value, money) => {
    if (!money) return String(value);
    const size = value < 0n ? -value : value;
    return `${value < 0n ? '-' : ''}${size / 100n}.${String(size % 100n).padStart(2, '0')}`;
};

/**
 * A player of a hand: what they had, put in, got, and netted, and would have netted with average luck. The last is null
 * if unknown.
 * @typedef {{ name: string, had: bigint, put: bigint, got: bigint, net: bigint, even: bigint | null }} Result
 *
 * A hand of a report. A rejected one has the line and the cause, an accepted one has players.
 * @typedef {{ number: string, isAccepted: boolean, game: string, isMoney: boolean, rake: bigint, isTwice: boolean,
 * line: number, cause: string, players: Result[] }} Hand
 */

/**
 * @param {string[]} words  the first record of a hand
 * @returns {Hand}
 */
const headOf = (words) => words[2] === 'accepted' ? {
    number: words[1],
    isAccepted: true,
    game: words[3],
    isMoney: isMoney(words[5]),
    rake: units(words[5]),
    isTwice: words[6] === 'twice',
    line: 0,
    cause: '',
    players: []
}
                                                  : {
                                                        number: words[1],
                                                        isAccepted: false,
                                                        game: '',
                                                        isMoney: false,
                                                        rake: 0n,
                                                        isTwice: false,
                                                        line: Number(words[4]),
                                                        cause: words.slice(5, 12).filter((it) => it !== '').join(' '),
                                                        players: []
                                                    };

/**
 * Returns the hands of a report of `results`, in order.
 * @param {string} csv
 */
export const handsOf = (csv) => {
    /** @type {Hand[]} */
    const hands = [];
    for (const words of records(csv)) {
        if (words[0] === 'hand') hands.push(headOf(words));
        else if (words[0] === 'result') {
            hands[hands.length - 1].players.push({
                name: words[12],
                had: units(words[2]),
                put: units(words[4]),
                got: units(words[6]),
                net: units(words[8]),
                even: words[10] === 'unknown' ? null : units(words[10])
            });
        }
    }
    return hands;
};

/**
 * What each winner of a side of a board gets of a pot, and whether an odd unit is part of it.
 * @typedef {{ board: string, side: string, units: string, isOdd: boolean, name: string }} Part
 *
 * What a player is due of a pot and got. Nobody knows what they are due if the pot is unseen.
 * @typedef {{ due: string | null, got: string, name: string }} Share
 *
 * @typedef {{ number: number, gross: string, rake: string, state: string, parts: Part[], shares: Share[] }} Pot
 *
 * What a player is still to get, or to give back if it is below 0.
 * @typedef {{ amount: string, name: string }} Settle
 *
 * @typedef {Hand & { pots: Pot[], paid: Share[], settle: Settle[] }} Settlement
 */

/**
 * Returns the hands of a report of `settle`, in order.
 * @param {string} csv
 */
export const settlementsOf = (csv) => {
    /** @type {Settlement[]} */
    const hands = [];
    for (const words of records(csv)) {
        if (words[0] === 'hand') {
            hands.push({ ...headOf(words), pots: [], paid: [], settle: [] });
            continue;
        }
        const hand = hands[hands.length - 1], pot = hand.pots[hand.pots.length - 1], name = words[12];
        if (words[0] === 'pot') {
            const isUnfit = words[4] === 'unfit';
            hand.pots.push({
                number: Number(words[1]),
                gross: words[3],
                rake: isUnfit ? '' : words[5],
                state: isUnfit ? 'unfit' : words[6],
                parts: [],
                shares: []
            });
        } else if (words[0] === 'part')
            pot.parts.push({ board: words[2], side: words[3], units: words[5], isOdd: words[7] === '1', name });
        else if (words[0] === 'share') pot.shares.push({ due: words[3], got: words[5], name });
        else if (words[0] === 'paid')
            (pot.state === 'unfit' ? hand.paid : pot.shares).push({ due: null, got: words[1], name });
        else if (words[0] === 'settle') hand.settle.push({ amount: words[1], name });
    }
    return hands;
};

/**
 * Returns the counted all-in of the one hand of a report of `audit`, or null: its street, and for each name what its
 * pots hold and which part of each the name may expect.
 * @param {string} csv
 */
export const allInOf = (csv) => {
    /** @type {{ street: string, parts: Map<string, { gross: string, part: string }[]> } | null} */
    let found = null;
    /** @type {Map<string, string>} */
    const gross = new Map();
    for (const words of records(csv)) {
        if (words[0] === 'pot' && words[2] === 'gross') gross.set(words[1], words[3]);
        else if (words[0] === 'all-in' && words[2] === 'runouts') found = { street: words[1], parts: new Map() };
        else if (words[0] === 'pot' && words[2] === 'ev' && found) {
            const parts = found.parts.get(words[12]) || [];
            found.parts.set(words[12], [...parts, { gross: gross.get(words[1]) || '', part: words[3] }]);
        }
    }
    return found;
};
