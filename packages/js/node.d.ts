// What this package uses of Node, for tsc, since Debian has no types for Node.
declare module 'node:fs' {
    interface Entry { name: string; isDirectory(): boolean }
    export function closeSync(handle: number): void;
    export function createReadStream(path: string, options?: { highWaterMark: number }): AsyncIterable<Uint8Array>;
    export function openSync(path: string, flags: 'r'): number;
    export function readSync(handle: number, buffer: Uint8Array): number;
    export function readFileSync(path: URL, encoding: 'utf8'): string;
    export function readdirSync(path: string, options: { withFileTypes: true }): Entry[];
    export function statSync(path: string): { isDirectory(): boolean; isFile(): boolean };
}
declare module 'node:path' { export function join(...parts: string[]): string }
interface Buffer extends Uint8Array { toString(encoding?: string): string }
declare const Buffer: {
    from(text: string, encoding?: string): Buffer;
    from(bytes: ArrayBufferLike, at: number, length: number): Buffer;
    alloc(size: number): Buffer;
    concat(parts: Uint8Array[]): Buffer;
    compare(a: Uint8Array, b: Uint8Array): number;
};
interface Out { write(bytes: Uint8Array | string, done?: (error?: Error | null) => void): boolean }
declare const process: { stdin: AsyncIterable<Uint8Array>; stdout: Out; stderr: Out; argv: string[]; exitCode: number };
declare module '*.wasm.gz' { const packed: string; export default packed }
declare class DecompressionStream { constructor(format: 'gzip'); readable: ReadableStream<Uint8Array>; writable: WritableStream<Uint8Array> }
