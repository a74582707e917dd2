#!/usr/bin/env python3
"""Turns a WebAssembly module with 64-bit memory into one with 32-bit memory.

    page/narrow.py WIDE.wasm NARROW.wasm

Pointers stay 64-bit numbers in the code, and exported functions keep their types. Only the address that an access uses is
cut to 32 bits: an `i32.wrap_i64` follows the instruction that pushed the address. So an access beyond 4 GiB isn't caught
here; the memory never grows that far, because its limit is 65,536 pages.

If a place were forgotten, the module would be invalid: WebAssembly's validation wants each address of a 32-bit memory to be
32 bits wide. The script stops at every instruction and section that it doesn't know.
"""

import sys

I32, I64, F32, F64, V128 = 0x7F, 0x7E, 0x7D, 0x7C, 0x7B
BLOCK, LOOP, IF, ELSE, END = 0x02, 0x03, 0x04, 0x05, 0x0B
LOCAL_GET, LOCAL_SET = b"\x20", b"\x21"
WRAP, EXTEND_SIGNED, EXTEND = b"\xa7", b"\xac", b"\xad"
I32_CONST, I64_CONST = 0x41, 0x42
PAGES = 65536
# the type of what each store writes
STORES = {0x36: I32, 0x37: I64, 0x38: F32, 0x39: F64, 0x3A: I32, 0x3B: I32, 0x3C: I64, 0x3D: I64, 0x3E: I64}


def table(*rows):
    """Maps each opcode of the ranges to how many operands it pops; each of these instructions pushes one result."""
    return {code: pops for pops, ranges in rows for first, last in ranges for code in range(first, last + 1)}


# instructions without immediates
PLAIN = table(
    (1, [(0x45, 0x45), (0x50, 0x50), (0x67, 0x69), (0x79, 0x7B), (0x8B, 0x91), (0x99, 0x9F), (0xA7, 0xC4), (0xD1, 0xD1)]),
    (2, [(0x46, 0x4F), (0x51, 0x66), (0x6A, 0x78), (0x7C, 0x8A), (0x92, 0x98), (0xA0, 0xA6)]),
    (3, [(0x1B, 0x1B)]),
)
# instructions on vectors without immediates
VECTORS = table(
    (1, [(15, 20), (77, 77), (83, 83), (94, 100), (103, 106), (116, 117), (122, 122), (124, 129), (131, 132), (135, 138),
         (148, 148), (160, 161), (163, 164), (167, 170), (192, 193), (195, 196), (199, 202), (224, 225), (227, 227),
         (236, 237), (239, 239), (248, 255)]),
    (2, [(14, 14), (35, 76), (78, 81), (101, 102), (107, 115), (118, 121), (123, 123), (130, 130), (133, 134), (139, 147),
         (149, 153), (155, 159), (171, 174), (177, 177), (181, 186), (188, 191), (203, 206), (209, 209), (213, 223),
         (228, 235), (240, 247)]),
    (3, [(82, 82)]),
)
REPLACE_LANE = {23, 26, 28, 30, 32, 34}


def die(text):
    sys.exit(f"page/narrow.py: {text}")


def number(value):
    """An unsigned number in LEB128."""
    out = bytearray()
    while True:
        low, value = value & 127, value >> 7
        out.append(low | (128 if value else 0))
        if not value:
            return bytes(out)


def signed(value):
    """A signed number in LEB128."""
    out = bytearray()
    while True:
        low, value = value & 127, value >> 7
        if (value, low & 64) in ((0, 0), (-1, 64)):
            out.append(low)
            return bytes(out)
        out.append(low | 128)


def narrow_const(value):
    """`i32.const` of the low 32 bits of a number."""
    return bytes([I32_CONST]) + signed((value + 2**31) % 2**32 - 2**31)


class Reader:
    """A place in bytes that are read from front to back."""

    def __init__(self, data):
        self.data, self.at = data, 0

    def byte(self):
        self.at += 1
        return self.data[self.at - 1]

    def bytes(self, count):
        self.at += count
        return self.data[self.at - count : self.at]

    def unsigned(self):
        value = shift = 0
        while True:
            byte = self.byte()
            value |= (byte & 127) << shift
            shift += 7
            if byte < 128:
                return value

    def signed(self):
        value = shift = 0
        while True:
            byte = self.byte()
            value |= (byte & 127) << shift
            shift += 7
            if byte < 128:
                return value - (1 << shift) if byte & 64 else value

    def items(self):
        """Counts the items of a vector, so that each can be read in turn."""
        return range(self.unsigned())

    def since(self, start):
        return self.data[start : self.at]


class Body:
    """One function. `chunks` has the instructions written so far; `stack` says which chunk pushed each operand, or None if a
    chunk pushed more than one or the operand comes from an enclosing block."""

    def __init__(self, reader, parameters, types, functions):
        self.reader, self.types, self.functions = reader, types, functions
        self.locals = [(reader.unsigned(), reader.byte()) for _ in reader.items()]
        self.count = parameters + sum(count for count, _ in self.locals)
        self.chunks, self.stack, self.blocks, self.spare = [], [], [], {}

    def pop(self, count=1):
        for _ in range(count):
            slot = self.stack.pop() if self.stack else None
        return slot

    def push(self, count=1):
        self.stack += [None] * (count - 1) + [len(self.chunks) - 1] * (count > 0)

    def put(self, chunk, pops=0, pushes=0):
        """Writes an instruction that pops and pushes so many operands."""
        self.pop(pops) if pops else None
        self.chunks.append(chunk)
        self.push(pushes)

    def spare_local(self, kind, place):
        """A local of this function's own, for operands that have to be moved aside."""
        return self.spare.setdefault((kind, place), self.count + len(self.spare))

    def cut(self, slot):
        """Cuts the number that a chunk pushed to 32 bits."""
        chunk = self.chunks[slot]
        if chunk in (EXTEND, EXTEND_SIGNED):
            self.chunks[slot] = b""
        elif chunk[0] == I64_CONST:
            self.chunks[slot] = narrow_const(Reader(chunk[1:]).signed())
        else:
            self.chunks[slot] = chunk + WRAP

    def access(self, chunk, kinds, pushes):
        """Writes an access to memory. `kinds` has the types of its operands; I64 at a place in `cuts` is an address."""
        slots = self.stack[len(self.stack) - len(kinds) :] if len(self.stack) >= len(kinds) else [None] * len(kinds)
        # an operand's chunk may serve if it still is the last thing that moved the stack below the next operand
        if None not in slots:
            for slot, (_, is_address) in zip(slots, kinds):
                if is_address:
                    self.cut(slot)
            self.put(chunk, len(kinds), pushes)
            return
        moved = b""
        for place in range(len(kinds) - 1, 0, -1):
            kind, is_address = kinds[place]
            name = number(self.spare_local(I32 if is_address else kind, place))
            moved += (WRAP if is_address else b"") + LOCAL_SET + name
        moved += WRAP if kinds[0][1] else b""
        for place in range(1, len(kinds)):
            kind, is_address = kinds[place]
            moved += LOCAL_GET + number(self.spare_local(I32 if is_address else kind, place))
        self.put(moved + chunk, len(kinds), pushes)

    def memory_argument(self):
        """The alignment and the offset of an access, without the linker's padding, which has room for 64 bits."""
        align, place = self.reader.unsigned(), self.reader.unsigned()
        if align >= 64 or place >= 2**32:
            die("an access names a memory, or an offset of more than 32 bits")
        return number(align) + number(place)

    def enter(self, chunk, kind):
        """Begins a block. Its parameters come from outside, so no chunk of it pushed them."""
        takes, gives = (0, int(kind != -64)) if kind < 0 else self.types[kind]
        if takes:
            self.pop(takes)
        self.chunks.append(chunk)
        self.blocks.append((self.stack, takes, gives))
        self.stack = [None] * takes

    def leave(self):
        """Ends a block, and with the last one the function."""
        self.chunks.append(bytes([END]))
        if self.blocks:
            self.stack, _, gives = self.blocks.pop()
            self.push(gives)

    def instruction(self):
        reader, start = self.reader, self.reader.at
        op = reader.byte()
        if op in (BLOCK, LOOP, IF):
            kind = reader.signed()
            if op == IF:
                self.pop()
            self.enter(reader.since(start), kind)
        elif op == ELSE:
            self.chunks.append(bytes([op]))
            self.stack = [None] * self.blocks[-1][1]
        elif op == END:
            self.leave()
        elif op in (0x00, 0x0F):                    # unreachable, return
            self.put(bytes([op]))
            self.stack = []
        elif op in (0x0C, 0x0E):                    # br, br_table
            for _ in range(1 if op == 0x0C else reader.unsigned() + 1):
                reader.unsigned()
            self.put(reader.since(start))
            self.stack = []
        elif op == 0x0D:                            # br_if
            reader.unsigned()
            self.put(reader.since(start), 1)
        elif op == 0x10:                            # call
            takes, gives = self.types[self.functions[reader.unsigned()]]
            self.put(reader.since(start), takes, gives)
        elif op in (0x20, 0x23):                    # local.get, global.get
            reader.unsigned()
            self.put(reader.since(start), 0, 1)
        elif op in (0x21, 0x22, 0x24):              # local.set, local.tee, global.set
            reader.unsigned()
            self.put(reader.since(start), 1, int(op == 0x22))
        elif op in (I32_CONST, I64_CONST):
            reader.signed()
            self.put(reader.since(start), 0, 1)
        elif op in (0x43, 0x44):                    # f32.const, f64.const
            reader.bytes(4 if op == 0x43 else 8)
            self.put(reader.since(start), 0, 1)
        elif 0x28 <= op <= 0x35:                    # loads
            self.access(bytes([op]) + self.memory_argument(), [(I64, True)], 1)
        elif op in STORES:
            self.access(bytes([op]) + self.memory_argument(), [(I64, True), (STORES[op], False)], 0)
        elif op == 0x3F:                            # memory.size
            reader.byte()
            self.put(reader.since(start) + EXTEND, 0, 1)
        elif op == 0x40:                            # memory.grow: -1 if there is no more
            reader.byte()
            self.put(WRAP + reader.since(start) + EXTEND_SIGNED, 1, 1)
        elif op == 0xFC:
            self.bulk(start)
        elif op == 0xFD:
            self.vector(start)
        elif op in (0x01, 0x1A):                    # nop, drop
            self.put(bytes([op]), op == 0x1A)
        elif op in PLAIN:
            self.put(bytes([op]), PLAIN[op], 1)
        else:
            die(f"unknown instruction {op:#x}")

    def bulk(self, start):
        code = self.reader.unsigned()
        if code <= 7:                               # conversions that don't trap
            self.put(self.reader.since(start), 1, 1)
        elif code == 10:                            # memory.copy
            self.reader.bytes(2)
            self.access(self.reader.since(start), [(I64, True)] * 3, 0)
        elif code == 11:                            # memory.fill
            self.reader.byte()
            self.access(self.reader.since(start), [(I64, True), (I32, False), (I64, True)], 0)
        else:
            die(f"unknown instruction 0xfc {code}")

    def vector(self, start):
        reader = self.reader
        code = reader.unsigned()
        head = reader.since(start)
        if code <= 10 or code in (92, 93):          # loads
            self.access(head + self.memory_argument(), [(I64, True)], 1)
        elif code == 11:                            # store
            self.access(head + self.memory_argument(), [(I64, True), (V128, False)], 0)
        elif 84 <= code <= 91:                      # one lane, loaded or stored
            own = head + self.memory_argument() + reader.bytes(1)
            self.access(own, [(I64, True), (V128, False)], int(code <= 87))
        elif code in (12, 13):                      # const, shuffle
            reader.bytes(16)
            self.put(reader.since(start), 2 * (code == 13), 1)
        elif 21 <= code <= 34:                      # a lane, taken out or replaced
            reader.byte()
            self.put(reader.since(start), 2 if code in REPLACE_LANE else 1, 1)
        elif code in VECTORS:
            self.put(head, VECTORS[code], 1)
        else:
            die(f"unknown instruction 0xfd {code}")

    def narrowed(self):
        end = len(self.reader.data)
        while self.reader.at < end:
            self.instruction()
        own = self.locals + [(1, kind) for kind, _ in self.spare]
        head = number(len(own)) + b"".join(number(count) + bytes([kind]) for count, kind in own)
        return head + b"".join(self.chunks)


def limits(reader):
    """The limits of a memory or a table, which must be 64 bits wide, in 32 bits."""
    flags, least = reader.byte(), reader.unsigned()
    if flags & ~1 != 4:
        die("a memory or table isn't 64 bits wide")
    most = min(reader.unsigned(), PAGES) if flags & 1 else None
    return bytes([flags & 1]) + number(least) + (number(most) if most is not None else b"")


def offset(reader):
    """The constant place of a segment."""
    if reader.byte() != I64_CONST:
        die("a segment's place is no constant")
    out = narrow_const(reader.signed()) + bytes([reader.byte()])
    if out[-1] != END:
        die("a segment's place is no constant")
    return out


def segment(reader, active):
    if reader.unsigned() != 0:
        die("a segment has no place")
    start = offset(reader)
    if active:
        return b"\0" + start + (lambda count: number(count) + reader.bytes(count))(reader.unsigned())
    return b"\0" + start + (lambda all: number(len(all)) + b"".join(map(number, all)))([reader.unsigned() for _ in reader.items()])


def vector_of(items):
    return number(len(items)) + b"".join(items)


def narrow(module):
    if module[:8] != b"\0asm\1\0\0\0":
        die("no WebAssembly module")
    reader, out, types, functions = Reader(module[8:]), bytearray(module[:8]), [], []
    while reader.at < len(reader.data):
        kind = reader.byte()
        part = Reader(reader.bytes(reader.unsigned()))
        if kind == 0:                               # names, for debuggers
            continue
        if kind == 1:
            for _ in part.items():
                if part.byte() != 0x60:
                    die("a type isn't a function's")
                takes = len(part.bytes(part.unsigned()))
                types.append((takes, len(part.bytes(part.unsigned()))))
        elif kind == 2 and part.unsigned():
            die("the module imports something")
        elif kind == 3:
            functions = [part.unsigned() for _ in part.items()]
        elif kind == 4:
            part.data = vector_of([bytes([part.byte()]) + limits(part) for _ in part.items()])
        elif kind == 5:
            part.data = vector_of([limits(part) for _ in part.items()])
        elif kind in (9, 11):
            part.data = vector_of([segment(part, kind == 11) for _ in part.items()])
        elif kind == 10:
            bodies = []
            for place in part.items():
                code = Reader(part.bytes(part.unsigned()))
                body = Body(code, types[functions[place]][0], types, functions).narrowed()
                bodies.append(number(len(body)) + body)
            part.data = vector_of(bodies)
        elif kind not in (2, 6, 7, 8, 12):
            die(f"unknown section {kind}")
        out += bytes([kind]) + number(len(part.data)) + part.data
    return bytes(out)


if __name__ == "__main__":
    if len(sys.argv) != 3:
        sys.exit("usage: page/narrow.py WIDE.wasm NARROW.wasm")
    with open(sys.argv[1], "rb") as it:
        wide = it.read()
    with open(sys.argv[2], "wb") as it:
        it.write(narrow(wide))
