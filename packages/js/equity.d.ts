/** A mode that reads hand histories. */
export type Mode = 'audit' | 'check' | 'streets' | 'results' | 'settle' | 'totals' | 'balance';
/** A mode whose report is a list of hands. */
export type HandMode = 'audit' | 'check' | 'streets' | 'results' | 'settle';
export type Game = 'holdem' | 'omaha' | 'omaha8' | 'stud' | 'stud8' | 'razz' | 'draw5' | 'lowball27' | 'triple27';
/** Numerator and denominator, in lowest terms. */
export type Fraction = readonly [bigint, bigint];
/** Runouts in which a hand alone has the best hand of a side, is one of several, or is neither. */
export interface Side { readonly win: bigint; readonly tie: bigint; readonly lose: bigint }
/** `ev` is the part of the pot as the report prints it, with three decimal places. `equity` is exact, or null if the counts don't give it. */
export interface Share { readonly high: Side | null; readonly low: Side | null; readonly ev: string; readonly equity: Fraction | null }
export interface Spot { readonly game: Game; readonly runouts: bigint; readonly hands: readonly Share[] }
/** The counts are out of `runouts` times `weight`. */
export interface Ranges extends Spot { readonly choices: bigint; readonly weight: bigint }
/** Status 0 if all is well, 1 if a hand or spot was rejected; the report's bytes. */
export interface Report { readonly status: 0 | 1; readonly report: Uint8Array }
/** A line of the report: its words, the player's name as UTF-8, and the name's own bytes. */
export interface Row { readonly words: readonly string[]; readonly name: string; readonly bytes: Uint8Array }
/** `line` is the line of the whole input that departs, and `cause` its words; null and empty if the hand is accepted. */
export interface Hand {
    readonly number: bigint; readonly accepted: boolean; readonly line: bigint | null; readonly cause: readonly string[]; readonly rows: readonly Row[]
}
export type Code = 'USAGE' | 'REJECTED' | 'REFUSED' | 'TOO_LONG' | 'MEMORY' | 'NO_MODULE' | 'TRAP';
/** A call without an answer. `cause` is what the program printed of a line that it rejects or doesn't count. */
export class EquityError extends Error { constructor(code: Code, message: string, cause?: string); readonly code: Code; readonly cause: string }

/** Counts one line of `spots`, such as `holdem As Ah - Ks Kh -- 2c 7d 9h`. Throws if it is rejected or above the limit. */
export function spot(line: string): Promise<Spot>;
/** Counts lines one after the other. A line that is rejected or above the limit yields its error. */
export function spots(lines: Iterable<string>): AsyncIterableIterator<Spot | EquityError>;
/** Counts one line of `ranges`, such as `holdem TT+ - AsAh -- 2c 7d 9h`. */
export function ranges(line: string): Promise<Ranges>;
/** Yields the hands of an input as they come. */
export function hands(mode: HandMode, input: Uint8Array | Blob | ReadableStream<Uint8Array> | AsyncIterable<Uint8Array>): AsyncIterableIterator<Hand>;
/** Runs the program over an input, on the calling thread. */
export function run(mode: Mode | 'spots' | 'ranges' | 'made', form: 'text' | 'csv', input: Uint8Array): Promise<Report>;
