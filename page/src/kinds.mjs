// Why a file has no hand: the likely reason, from its first bytes.

/** As many first bytes are looked at. */
export const LOOKED_AT = 1 << 16;

/** @type {[number[], string][]} */
const SIGNATURES = [
    [[0x50, 0x4b, 0x03, 0x04], 'a zip archive: unpack it, and drop the files that are in it'],
    [[0x50, 0x4b, 0x05, 0x06], 'an empty zip archive'],
    [[0x1f, 0x8b], 'a gzip archive: unpack it first'],
    [[0x37, 0x7a, 0xbc, 0xaf], 'a 7z archive: unpack it first'],
    [[0x52, 0x61, 0x72, 0x21], 'a rar archive: unpack it first'],
    [[0x25, 0x50, 0x44, 0x46], 'a PDF: the hand histories themselves are text files'],
    [[0xff, 0xfe], 'text in UTF-16: save it as UTF-8'],
    [[0xfe, 0xff], 'text in UTF-16: save it as UTF-8'],
    [[0xd0, 0xcf, 0x11, 0xe0], 'a document of Word or Excel: save it as plain text'],
    [[0x7b, 0x5c, 0x72, 0x74, 0x66], 'a document in RTF: save it as plain text'],
    [[0x89, 0x50, 0x4e, 0x47], 'a picture'],
    [[0xff, 0xd8, 0xff], 'a picture'],
    [[0x47, 0x49, 0x46, 0x38], 'a picture'],
    [[0x53, 0x51, 0x4c, 0x69, 0x74, 0x65], 'a database: export hand histories from the program that made it'],
    [[0x7f, 0x45, 0x4c, 0x46], 'a program'],
    [[0x4d, 0x5a], 'a program'],
];

/** @type {[RegExp, string][]} */
const TEXTS = [
    [
        /^\s*(?:>|\|)+ ?PokerStars /m,
        'a copy from a mail or a forum, with a mark before each line: take the file that PokerStars wrote'
    ],
    [
        /^[ \t]+PokerStars [A-Za-z ]*(?:Hand|Game) #[0-9]/m,
        'a copy with spaces before its lines: take the file that PokerStars wrote'
    ],
    [/^POKERSTARS /m, 'a history with PokerStars in capitals, which isn\'t read as PokerStars writes it'],
    [/^Poker Hand #/m, 'another site, likely GGPoker: only hand histories of PokerStars are read'],
    [
        /^\*{5} Hand History [Ff]or Game|^#Game No *:/m,
        'another site, likely partypoker or 888: only hand histories of PokerStars are read'
    ],
    [/^Winamax Poker/m, 'another site, Winamax: only hand histories of PokerStars are read'],
    [
        /^(?:Ignition|Bovada|Bodog)\b.*Hand #/m,
        'another site, likely Ignition or Bovada: only hand histories of PokerStars are read'
    ],
    [/^Full Tilt Poker Game #/m, 'another site, Full Tilt: only hand histories of PokerStars are read'],
    [
        /^\s*(?:<\?xml[^>]*>\s*)?<session\b/,
        'another site, likely of the iPoker network: only hand histories of PokerStars are read'
    ],
    [
        /^(?:Game )?Hand #[0-9]/m,
        'another site, likely of the Winning network: only hand histories of PokerStars are read'
    ],
    [/^PokerStars Tournament #[0-9]/m, 'the summary of a tournament, which has no hands'],
    [
        /^\S* ?PokerStars .*#[0-9]|^(?:Main|Mano) PokerStars\b/m,
        'PokerStars, but in another language: switch the histories to English'
    ],
    [/^\s*<(?:!doctype|html|\?xml)/i, 'a web page or XML'],
    [/^PokerStars\b/m, 'text of PokerStars, but no line begins a hand as "PokerStars Hand #" and a number does'],
];

/**
 * Whether text is likely UTF-16 without a mark: every other byte is 0.
 * @param {Uint8Array} bytes
 */
const isWide = (bytes) => {
    const some = bytes.subarray(0, 400), zeros = [0, 0];
    some.forEach((it, at) => { if (it === 0) zeros[at % 2]++; });
    return some.length > 3 && Math.max(...zeros) > some.length * 0.4 && Math.min(...zeros) < some.length * 0.05;
};

/**
 * Returns the likely reason why a file has no hand, as the rest of a sentence.
 * @param {Uint8Array} bytes  the first bytes of the file
 */
export const reasonOf = (bytes) => {
    if (!bytes.length) return 'an empty file';
    const signed = SIGNATURES.find(([signature]) => signature.every((it, at) => bytes[at] === it));
    if (signed) return signed[1];
    if (isWide(bytes)) return 'text in UTF-16: save it as UTF-8';
    if (bytes.includes(0)) return 'not text';
    const text = new TextDecoder().decode(bytes);
    if (!text.trim()) return 'a file of blank lines';
    const told = TEXTS.find(([form]) => form.test(text));
    return told ? told[1] : 'text, but no hand history of PokerStars in English';
};
