// Cuts a stream of hand histories at header lines, by the program's own rule for such a line.

/** @typedef {{ bytes: Uint8Array, before: bigint }} Piece whole hands, and the number of lines before them */

const NEWLINE = 0x0a;
const START = new TextEncoder().encode('PokerStars ');
const KINDS = ['Hand #', 'Game #'].map((it) => new TextEncoder().encode(it));
const BLANK = 0x20;
/** A UTF-8 byte order mark, which the program takes off the start of a line. */
const MARK = Uint8Array.of(0xef, 0xbb, 0xbf);

/** Bytes that are gathered before whole hands are handed on. */
const PIECE = 1 << 20;

/** @param {number} it */
const isLetter = (it) => (it >= 0x41 && it <= 0x5a) || (it >= 0x61 && it <= 0x7a);

/**
 * @param {Uint8Array} bytes
 * @param {number} at
 * @param {Uint8Array} text
 */
const startsAt = (bytes, at, text) => text.every((it, place) => bytes[at + place] === it);

/**
 * Whether a header line begins at a place: `PokerStars `, letters and spaces, `Hand #` or `Game #`, and a digit.
 * @param {Uint8Array} bytes
 * @param {number} start
 */
export const isHeader = (bytes, start) => {
    const from = startsAt(bytes, start, MARK) ? start + MARK.length : start;
    if (!startsAt(bytes, from, START)) return false;
    let at = from + START.length;
    while (isLetter(bytes[at]) || bytes[at] === BLANK) at++;
    // the letters before the `#` end with `Hand ` or `Game `
    const kind = at - 5;
    const digit = bytes[at + 1];
    return kind >= from + START.length && KINDS.some((it) => startsAt(bytes, kind, it)) && digit >= 0x30 && digit <= 0x39;
};

/** @param {Uint8Array} bytes */
const linesIn = (bytes) => {
    let count = 0n;
    for (let at = bytes.indexOf(NEWLINE); at >= 0; at = bytes.indexOf(NEWLINE, at + 1)) count++;
    return count;
};

/**
 * The start of the last header line whose newline is there, after the first line, or -1.
 * @param {Uint8Array} bytes
 */
const lastHeader = (bytes) => {
    let end = bytes.lastIndexOf(NEWLINE);
    while (end > 0) {
        const before = bytes.lastIndexOf(NEWLINE, end - 1);
        if (before < 0) return -1;
        if (isHeader(bytes, before + 1)) return before + 1;
        end = before;
    }
    return -1;
};

/** @param {Uint8Array[]} parts */
const joined = (parts) => {
    const whole = new Uint8Array(parts.reduce((sum, it) => sum + it.length, 0));
    let at = 0;
    for (const part of parts) {
        whole.set(part, at);
        at += part.length;
    }
    return whole;
};

/**
 * Yields whole hands, some at a time. What comes before the first header line belongs to no hand and is yielded as well.
 * @param {AsyncIterable<Uint8Array>} chunks
 * @returns {AsyncGenerator<Piece>}
 */
export async function* piecesOf(chunks) {
    /** @type {Uint8Array[]} */
    let parts = [];
    let size = 0;
    let least = PIECE;
    let before = 0n;
    for await (const chunk of chunks) {
        parts.push(chunk);
        size += chunk.length;
        if (size < least) continue;
        const whole = joined(parts);
        const at = lastHeader(whole);
        // a hand that is longer than a piece is gathered further, twice as far each time
        least = at < 0 ? 2 * size : PIECE;
        parts = [at < 0 ? whole : whole.subarray(at)];
        size = parts[0].length;
        if (at < 0) continue;
        const bytes = whole.subarray(0, at);
        yield { bytes, before };
        before += linesIn(bytes);
    }
    yield { bytes: joined(parts), before };
}

/**
 * The bytes of an input, as they come.
 * @param {Uint8Array | Blob | ReadableStream<Uint8Array> | AsyncIterable<Uint8Array>} input
 * @returns {AsyncIterable<Uint8Array>}
 */
export const chunksOf = (input) => {
    if (input instanceof Uint8Array) {
        return (async function* whole() {
            for (let at = 0; at < input.length; at += PIECE) yield input.subarray(at, at + PIECE);
        })();
    }
    if (Symbol.asyncIterator in input) return /** @type {AsyncIterable<Uint8Array>} */ (input);
    const stream = input instanceof Blob ? input.stream() : input;
    return (async function* read() {
        const reader = /** @type {ReadableStream<Uint8Array>} */ (stream).getReader();
        try {
            for (;;) {
                const { done, value } = await reader.read();
                if (done) return;
                yield value;
            }
        } finally {
            await reader.cancel();
        }
    })();
};
