// The names of all players, and in how many hands each is.

import { DEALT, SEATED } from './part.mjs';

/** @typedef {import('./hands.mjs').Hands} Hands */
/**
 * For each text, in how many accepted hands it is a name, and in how many of these cards were dealt to it openly; and
 * how many names there are.
 * @typedef {{ counts: Uint32Array, dealt: Uint32Array, size: number }} Tally
 * @typedef {{ name: string, count: number, dealt: number }} Name
 */

/**
 * Counts the hands of each name.
 * @param {Hands} hands
 * @param {Uint32Array} order
 * @returns {Tally}
 */
export const tallyOf = (hands, order) => {
    const { first, name, marks } = hands.columns, counts = new Uint32Array(hands.texts.length),
                        dealt = new Uint32Array(hands.texts.length);
    let size = 0;
    for (const hand of order)
        for (let row = first[hand]; row < first[hand + 1]; row++)
            if (!(marks[row] & SEATED)) {
                if (!counts[name[row]]++) size++;
                if (marks[row] & DEALT) dealt[name[row]]++;
            }
    return { counts, dealt, size };
};

/**
 * Returns a name with its numbers of hands.
 * @param {Hands} hands
 * @param {Tally} tally
 * @param {string} name
 * @returns {Name}
 */
export const nameOf = ({ ids }, { counts, dealt }, name) => {
    const id = ids.get(name);
    return id === undefined ? { name, count: 0, dealt: 0 } : { name, count: counts[id] || 0, dealt: dealt[id] || 0 };
};

/**
 * Returns the first names with their numbers of hands. Names to whom cards were dealt openly come first, because it is
 * their history. There can be hundreds of thousands, so only the first ones are sorted.
 * @param {Hands} hands
 * @param {Tally} tally
 * @param {number} most
 */
export const namesOf = ({ texts }, { counts, dealt }, most) => {
    /** @type {number[]} */
    const some = [];
    const compare = (/** @type {number} */ a, /** @type {number} */ b) =>
        dealt[b] - dealt[a] || counts[b] - counts[a] || (texts[a] < texts[b] ? -1 : 1);
    for (let id = 0; id < counts.length; id++) {
        if (!counts[id] || some.length >= most && compare(id, some[some.length - 1]) > 0) continue;
        let low = 0, high = some.length;
        while (low < high) {
            const middle = (low + high) >> 1;
            if (compare(id, some[middle]) < 0) high = middle;
            else low = middle + 1;
        }
        some.splice(low, 0, id);
        if (some.length > most) some.pop();
    }
    return some.map((id) => ({ name: texts[id], count: counts[id], dealt: dealt[id] }));
};
