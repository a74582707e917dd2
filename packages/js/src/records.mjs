// Records of a report in CSV: 12 words each, and a name, which can be any bytes.

/** @typedef {import('../equity').Row} Row */

const COMMA = 0x2c;
const QUOTE = 0x22;
const NEWLINE = 0x0a;
const decoder = new TextDecoder();

/**
 * Returns the bytes between the quotes of a field, with each doubled quote as one, and the place behind the field.
 * @param {Uint8Array} bytes
 * @param {number} start
 * @returns {[Uint8Array, number]}
 */
const quotedField = (bytes, start) => {
    const parts = [];
    let at = start + 1;
    for (;;) {
        const end = bytes.indexOf(QUOTE, at);
        parts.push(bytes.subarray(at, end));
        if (bytes[end + 1] !== QUOTE) {
            const whole = new Uint8Array(parts.reduce((sum, it) => sum + it.length, parts.length - 1));
            let to = 0;
            for (const part of parts) {
                if (to > 0) whole[to - 1] = QUOTE;
                whole.set(part, to);
                to += part.length + 1;
            }
            return [whole, end + 1];
        }
        at = end + 2;
    }
};

/**
 * Returns a field and the place behind it.
 * @param {Uint8Array} bytes
 * @param {number} at
 * @returns {[Uint8Array, number]}
 */
const fieldAt = (bytes, at) => {
    if (bytes[at] === QUOTE) return quotedField(bytes, at);
    let end = at;
    while (end < bytes.length && bytes[end] !== COMMA && bytes[end] !== NEWLINE) end++;
    return [bytes.subarray(at, end), end];
};

/**
 * Yields the records of a report in CSV, without the empty fields between the words and the name.
 * @param {Uint8Array} bytes
 * @returns {Generator<Row>}
 */
export function* rowsOf(bytes) {
    for (let at = 0; at < bytes.length;) {
        /** @type {Uint8Array[]} */
        const fields = [];
        for (;;) {
            const [field, end] = fieldAt(bytes, at);
            fields.push(field);
            at = end + 1;
            if (end >= bytes.length || bytes[end] === NEWLINE) break;
        }
        const name = fields[fields.length - 1];
        const words = fields.slice(0, -1).filter((it) => it.length > 0).map((it) => decoder.decode(it));
        yield { words, name: decoder.decode(name), bytes: name.slice() };
    }
}
