// The picture of the table on one street: seats, stacks, bets, cards, the board, and the pot.

import { having, node } from './dom.mjs';
import { face } from './play.mjs';
import { POSITION_WORDS } from './positions.mjs';

/** @typedef {import('./replay.mjs').Replay} Replay */

/**
 * What the picture needs of a hand. `hero` is the player whom one looks at, or an empty text.
 * @typedef {{ game: Replay, hero: string, positions: Map<string, string>, say: (sum: bigint) => string,
 *     boardSize: number }} Shown
 */

const FEW = 4;

/**
 * Returns the cards of a seat on a street: those that are known by then, or backs.
 * @param {Shown} shown
 * @param {number} at
 * @param {string} name
 */
const cardsOf = ({ game, hero }, at, name) => {
    const { after, key } = game.streets[at], all = game.cards.get(name) || [], now = after.cards.get(name) || [];
    if (after.folded.has(name) && name !== hero) return [];
    const isSeen = name === hero || key === 'showdown' || after.isOpen && !game.folded.has(name);
    const cards = now.length ? now : isSeen ? all : [];
    const size = cards.length > FEW ? '.tiny' : '.small';
    return cards.length ? cards.map((card) => face(card, size))
        : after.folded.has(name) ? [] : [node('span.face.small.back'), node('span.face.small.back')];
};

/**
 * Draws the table on a street.
 * @param {Shown} shown
 * @param {number} at
 */
export const feltNode = (shown, at) => {
    const { game, hero, positions, say, boardSize } = shown, { board, fresh, after } = game.streets[at];
    const seats = [...game.seats].sort((a, b) => a.seat - b.seat), { length } = seats, it = node('div.felt');
    const first = Math.max(0, seats.findIndex(({ name }) => name === hero));
    const slots = Array.from({ length: boardSize }, (none, card) => board[card]
        ? face(board[card], fresh.includes(board[card]) ? '.new' : '') : node('span.face.slot'));
    it.append(node('div.oval'), node('div.mid', node('div.faces', ...slots),
        node('p', node('small', 'Pot'), say(after.pot))));
    seats.forEach(({ name }, index) => {
        const angle = Math.PI / 2 + (index - first) * 2 * Math.PI / length;
        const x = 50 + 39 * Math.cos(angle), y = 50 + 39.5 * Math.sin(angle), isOut = after.folded.has(name);
        const position = positions.get(name) || '', bet = after.bets.get(name) || 0n;
        const pill = position ? [having(node(position === 'BTN' ? 'i.posn.is-btn' : 'i.posn', position),
            { title: POSITION_WORDS[position] })] : [];
        const seat = node(`div.seat${name === hero ? '.hero' : ''}${isOut ? '.out' : ''}`,
            node('div.faces.tight', ...cardsOf(shown, at, name)),
            node('div.plate', having(node('b', name), { title: name }), node('span', say(after.stacks.get(name) || 0n)),
                ...isOut ? [node('span.vh', ' folded')] : [], ...pill));
        seat.style.left = `${x}%`;
        seat.style.top = `${y}%`;
        it.append(seat);
        if (bet <= 0n) return;
        const chips = node('span.bet', say(bet));
        chips.style.left = `${50 + (x - 50) * 0.62}%`;
        chips.style.top = `${50 + (y - 50) * (y > 50 ? 0.5 : 0.42)}%`;
        it.append(chips);
    });
    return it;
};
