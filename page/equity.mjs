// The engine: the proved program as a function of bytes. It uses nothing but WebAssembly and TextEncoder, so a page, a
// worker, and Node run it alike.

/** @typedef {{ status: number, report: Uint8Array }} Ran */
/**
 * @typedef {object} Exports
 * @property {WebAssembly.Memory} memory
 * @property {(size: bigint) => bigint} page_room
 * @property {(...given: bigint[]) => number} equity_page_run
 */

/** The statuses that the engine acts on: a full room for the report, and refused memory during and before the run. */
const ROOM_FULL = 4;
const NO_MEMORY = 6;
const NO_MEMORY_BEFORE = 8;

/** Most bytes that a report needs per byte of input, as a first guess, and bytes beyond that. */
const ROOM_PER_BYTE = 4;
const ROOM_LEAST = 1 << 16;

const encoder = new TextEncoder();

/** The same as a run that was refused memory. @returns {Ran} */
const refused = () => ({ status: NO_MEMORY, report: new Uint8Array(0) });

/**
 * Runs the program once, with room for so many bytes of report. Returns null if the memory has no room for what it is
 * given.
 * @param {WebAssembly.Module} module
 * @param {Uint8Array[]} given
 * @param {number} room
 * @returns {Ran | null}
 */
const runOnce = (module, given, room) => {
    // an instance serves one run: nothing of an earlier run is left, and none is used after a trap
    const exports = /** @type {Exports} */ (/** @type {unknown} */ (new WebAssembly.Instance(module, {}).exports));
    const { memory, page_room: roomFor, equity_page_run: runPage } = exports;
    const sizes = [...given.map((it) => it.length), room, 8];
    const places = sizes.map((it) => roomFor(BigInt(it)));
    if (places.includes(0n)) return null;
    const [mode, form, input, report, length] = places;
    given.forEach((bytes, at) => new Uint8Array(memory.buffer).set(bytes, Number(places[at])));
    new DataView(memory.buffer).setBigUint64(Number(length), 0n, true);
    const status =
        runPage(mode, BigInt(sizes[0]), form, BigInt(sizes[1]), input, BigInt(sizes[2]), report, BigInt(room), length);
    const count = Number(new DataView(memory.buffer).getBigUint64(Number(length), true));
    return { status, report: new Uint8Array(memory.buffer, Number(report), count).slice() };
};

/**
 * Runs `equity MODE --format FORM` over the bytes of an input, and returns its exit status and its standard output. The
 * run ends before this function returns. Status 6 says that the memory, of 4 GiB at most, was too small.
 * @param {WebAssembly.Module} module
 * @param {string} mode
 * @param {string} form
 * @param {Uint8Array} input
 * @returns {Ran}
 */
const run = (module, mode, form, input) => {
    const given = [encoder.encode(mode), encoder.encode(form), input];
    for (let room = ROOM_PER_BYTE * input.length + ROOM_LEAST; ; room *= 2) {
        const ran = runOnce(module, given, room);
        if (!ran || ran.status === NO_MEMORY_BEFORE) return refused();
        if (ran.status !== ROOM_FULL) return ran;
    }
};

/**
 * Makes an engine from the bytes of the module, or from the module itself once it is compiled, say in another thread.
 * @param {BufferSource | WebAssembly.Module} source
 * @returns {Promise<{ module: WebAssembly.Module, run: (mode: string, form: string, input: Uint8Array) => Ran }>}
 */
export const makeEngine = async (source) => {
    const module = source instanceof WebAssembly.Module ? source : await WebAssembly.compile(source);
    return { module, run: (mode, form, input) => run(module, mode, form, input) };
};
