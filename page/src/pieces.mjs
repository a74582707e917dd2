// A file in pieces that end where a hand begins, so one large file can be read by all workers.

import { beginsHand, lastHand } from './texts.mjs';

/** As many bytes are read at once. A hand that is longer makes a larger piece. */
export const PIECE = 1 << 20;

/**
 * Returns two pieces of bytes as one.
 * @param {Uint8Array} one
 * @param {Uint8Array} other
 */
const joined = (one, other) => {
    if (!one.length) return other;
    const both = new Uint8Array(one.length + other.length);
    both.set(one);
    both.set(other, one.length);
    return both;
};

/**
 * Yields the pieces of a file, each with its first byte's place. All bytes are in a piece.
 * @param {(from: number, to: number) => Promise<Uint8Array>} read
 * @param {number} size
 * @param {number} [piece]
 * @returns {AsyncGenerator<{ bytes: Uint8Array, start: number }>}
 */
export async function* piecesOf(read, size, piece = PIECE) {
    let rest = new Uint8Array(0), start = 0, step = piece;
    for (let at = 0; at < size;) {
        const to = Math.min(size, at + step), bytes = joined(rest, await read(at, to));
        at = to;
        // where no hand has begun, any line may end a piece
        const hand = lastHand(bytes), end = hand > 0 || beginsHand(bytes, 0) ? hand : bytes.lastIndexOf(10) + 1;
        // a piece without an end grows by doubling, so that bytes aren't copied again and again
        step = end > 0 ? piece : 2 * step;
        if (end > 0) {
            yield { bytes: bytes.slice(0, end), start };
            rest = bytes.slice(end);
            start += end;
        } else rest = bytes;
    }
    if (rest.length) yield { bytes: rest, start };
}
