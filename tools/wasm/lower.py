#!/usr/bin/env python3
# SPDX-License-Identifier: MIT OR Apache-2.0
"""Lowers a WebAssembly module with 64-bit addresses to one with 32-bit addresses, which all browsers
and Node take.

  tools/wasm/lower.py IN.wasm OUT.wasm VERSION

- Each address loses its upper half just before it is used. Numbers and memory stay as they were: a
  pointer in memory has 64 bits. Both modules do the same as long as each address is below 4 GiB.
  One that is not traps in the first module; so the memory of the second ends at 3 GiB, and what is
  just below 0, as a stack that is full, traps there too.
- Exports take and give numbers of 32 bits, from 0, as C has them where `size_t` has 32 bits. Each is
  a new function, which calls the old one. Only functions and the memory are exported.
- Sections of names are left out, and numbers are written as short as they can be: the linker leaves
  room in them. At the very end stands a section `roskevad` with the version: a module that was cut
  short lacks it.

What it does not know it refuses. A place where an address was overlooked makes the module invalid,
so each engine finds it."""
import sys
from pathlib import Path

I32, I64, V128 = 0x7F, 0x7E, 0x7B
# 3 GiB; crates/roskevad_c/module_heap/heap.c asks for no more.
MOST_PAGES = 49152
# The section at the end.
MARK = b'roskevad'

# Instructions, by their codes.
WRAP, EXTEND_SIGNED, EXTEND = b'\xa7', b'\xac', b'\xad'
GET_LOCAL, SET_LOCAL, CALL, END = b'\x20', b'\x21', b'\x10', b'\x0b'
MEMORY_SIZE, MEMORY_GROW, CALL_INDIRECT, BRANCH_TABLE, SELECT = 0x3F, 0x40, 0x11, 0x0E, 0x1C
LOADS = range(0x28, 0x36)
# What each store takes beside the address.
STORES = {
    **{code: I32 for code in (0x36, 0x3A, 0x3B)},
    **{code: I64 for code in (0x37, 0x3C, 0x3D, 0x3E)},
    0x38: 0x7D,
    0x39: 0x7C,
}
# Those that touch no address, by what stands behind the code: nothing, a type of a block, an index,
# a constant or so many bytes.
PLAIN = {0x00, 0x01, 0x05, 0x0B, 0x0F, 0x1A, 0x1B, *range(0x45, 0xC5)}
BLOCKS = {0x02, 0x03, 0x04}
INDEXED = {0x0C, 0x0D, 0x10, 0x20, 0x21, 0x22, 0x23, 0x24}
CONSTANTS = {0x41, 0x42}
BYTES_BEHIND = {0x43: 4, 0x44: 8}
# Those behind 0xFC: conversions, copies and fills.
MORE, CONVERSIONS, COPY, FILL = 0xFC, range(8), 10, 11
# Those behind 0xFD, on vectors: loads, stores, loads and stores of a lane, and the others by how
# many bytes stand behind the code.
VECTOR = 0xFD
VECTOR_LOADS = {*range(11), 92, 93}
VECTOR_STORE = 11
VECTOR_LANES = range(84, 92)
VECTOR_BYTES_BEHIND = {12: 16, 13: 16, **{code: 1 for code in range(21, 35)}}
VECTOR_MOST = 255


class Unknown(Exception):
    """Something in a module that is not known here."""


def unsigned(number):
    """A number from 0, in seven bits a byte."""
    out = bytearray()
    while number > 127:
        out.append(number & 127 | 128)
        number >>= 7
    return bytes([*out, number])


def signed(number):
    """Any number, in seven bits a byte."""
    out = bytearray()
    while not -64 <= number < 64:
        out.append(number & 127 | 128)
        number >>= 7
    return bytes([*out, number & 127])


def sized(data):
    """Bytes behind their size."""
    return unsigned(len(data)) + data


def listed(items):
    """Items behind their count."""
    return unsigned(len(items)) + b''.join(items)


class Reader:
    """Reads bytes from the front on."""

    def __init__(self, data):
        self.data, self.at = data, 0

    def has_more(self):
        return self.at < len(self.data)

    def byte(self):
        self.at += 1
        return self.data[self.at - 1]

    def take(self, size):
        self.at += size
        return self.data[self.at - size : self.at]

    def groups(self):
        """A number by its groups of seven bits, and how many bits these are."""
        number = bits = 0
        while True:
            byte = self.byte()
            number |= (byte & 127) << bits
            bits += 7
            if byte < 128:
                return number, bits

    def unsigned(self):
        return self.groups()[0]

    def signed(self):
        number, bits = self.groups()
        return number - (1 << bits) if number >> (bits - 1) else number

    def sized(self):
        return self.take(self.unsigned())

    def each(self):
        """Counts a list, so that each of its items is read in turn."""
        return range(self.unsigned())


# ---- the body of a function


class Body:
    """A function's body as it is lowered. Locals that keep what stands above an address are added to
    its own."""

    def __init__(self, data, parameters):
        self.reader, self.out = Reader(data), bytearray()
        self.locals = [(self.reader.unsigned(), self.reader.byte()) for _ in self.reader.each()]
        self.next = parameters + sum(count for count, _ in self.locals)
        self.spare = {}

    def lowered(self):
        while self.reader.has_more():
            self.instruction()
        locals_ = listed([unsigned(count) + bytes([kind]) for count, kind in self.locals])
        return locals_ + bytes(self.out)

    def local(self, kind, number=0):
        """The index of a spare local of a type."""
        if (kind, number) not in self.spare:
            self.spare[kind, number] = unsigned(self.next)
            self.locals.append((1, kind))
            self.next += 1
        return self.spare[kind, number]

    def instruction(self):
        start = self.reader.at
        code = self.reader.byte()
        if code == MORE:
            self.more(start)
        elif code == VECTOR:
            self.vector(start)
        elif code in LOADS:
            self.out += WRAP + bytes([code]) + self.place()
        elif code in STORES:
            self.below(STORES[code], bytes([code]) + self.place())
        elif code == MEMORY_SIZE:
            self.out += bytes([code, self.reader.byte()]) + EXTEND
        elif code == MEMORY_GROW:
            self.out += WRAP + bytes([code, self.reader.byte()]) + EXTEND_SIGNED
        elif code == CALL_INDIRECT:
            self.out += WRAP + bytes([code]) + unsigned(self.reader.unsigned())
            self.out += unsigned(self.reader.unsigned())
        elif code in INDEXED:
            self.out += bytes([code]) + unsigned(self.reader.unsigned())
        elif code in CONSTANTS:
            self.out += bytes([code]) + signed(self.reader.signed())
        else:
            self.skip(code)
            self.copy(start)

    def copy(self, start):
        """Takes over an instruction that was read."""
        self.out += self.reader.data[start : self.reader.at]

    def skip(self, code):
        """Reads what stands behind the code of another instruction."""
        reader = self.reader
        if code in BLOCKS:
            reader.signed()
        elif code in BYTES_BEHIND:
            reader.take(BYTES_BEHIND[code])
        elif code == BRANCH_TABLE:
            for _ in range(reader.unsigned() + 1):
                reader.unsigned()
        elif code == SELECT:
            reader.sized()
        elif code not in PLAIN:
            raise Unknown(f'the instruction {code:#x}')

    def more(self, start):
        code = self.reader.unsigned()
        if code == COPY:
            self.reader.take(2)
            self.ranges(I64, WRAP, start)
        elif code == FILL:
            self.reader.take(1)
            self.ranges(I32, b'', start)
        elif code in CONVERSIONS:
            self.copy(start)
        else:
            raise Unknown(f'the instruction 0xfc {code}')

    def vector(self, start):
        code = self.reader.unsigned()
        head = self.reader.data[start : self.reader.at]
        if code in VECTOR_LOADS:
            self.out += WRAP + head + self.place()
        elif code == VECTOR_STORE:
            self.below(V128, head + self.place())
        elif code in VECTOR_LANES:
            self.below(V128, head + self.place() + self.reader.take(1))
        elif code <= VECTOR_MOST:
            self.reader.take(VECTOR_BYTES_BEHIND.get(code, 0))
            self.copy(start)
        else:
            raise Unknown(f'the instruction 0xfd {code}')

    def place(self):
        """The alignment and the offset of an access. The offset may have been written for more
        bits, and is written anew."""
        alignment, offset = self.reader.unsigned(), self.reader.unsigned()
        if alignment >= 64 or offset >= 1 << 32:
            raise Unknown(f'an access with alignment {alignment} and offset {offset}')
        return unsigned(alignment) + unsigned(offset)

    def below(self, kind, instruction):
        """An instruction whose address lies below another operand."""
        spare = self.local(kind)
        self.out += SET_LOCAL + spare + WRAP + GET_LOCAL + spare + instruction

    def ranges(self, kind, middle, start):
        """A copy or a fill: an address, an address or a byte, and a size."""
        second, size = self.local(kind, 1), self.local(I64)
        self.out += SET_LOCAL + size + SET_LOCAL + second + WRAP
        self.out += GET_LOCAL + second + middle + GET_LOCAL + size + WRAP
        self.copy(start)


# ---- sections


def limits(reader, most=None):
    """The limits of a table or memory, with 32 bits."""
    flags = reader.byte()
    if flags not in (4, 5):
        raise Unknown(f'limits with flags {flags:#x}')
    least = reader.unsigned()
    greatest = [reader.unsigned()] if flags == 5 else []
    if most is not None:
        greatest = [min([most, *greatest])]
    return bytes([len(greatest)]) + unsigned(least) + b''.join(map(unsigned, greatest))


def segments(data, read_rest):
    """Segments of a table or memory, each at a constant place."""
    reader, found = Reader(data), []
    for _ in reader.each():
        kind, code, place, end = reader.byte(), reader.byte(), reader.signed(), reader.byte()
        if (kind, code, end) != (0, 0x42, 0x0B) or not 0 <= place < 1 << 31:
            raise Unknown(f'a segment of kind {kind} at {place}')
        start = reader.at
        read_rest(reader)
        found.append(bytes([0, 0x41]) + signed(place) + END + data[start : reader.at])
    return listed(found)


def read_indices(reader):
    for _ in reader.each():
        reader.unsigned()


def see_globals(data):
    """Refuses a global whose first value is no plain number."""
    reader = Reader(data)
    for _ in reader.each():
        kind, _, code, _, end = reader.byte(), reader.byte(), reader.byte(), reader.signed(), reader.byte()
        if (kind, code, end) not in ((I32, 0x41, 0x0B), (I64, 0x42, 0x0B)):
            raise Unknown(f'a global of type {kind:#x}')


class Lowering:
    """A module, section by section: its types of functions, the types that its functions have, and
    which of them are exported."""

    TYPES, IMPORTS, FUNCTIONS, TABLES, MEMORIES, GLOBALS, EXPORTS = range(1, 8)
    ELEMENTS, CODE, DATA, DATA_COUNT = 9, 10, 11, 12

    def __init__(self, module):
        reader = Reader(module)
        self.head = reader.take(8)
        self.sections = {}
        while reader.has_more():
            number = reader.byte()
            self.sections[number] = reader.sized()
        self.types = self.read_types()
        self.functions = [index for index in self.numbers(self.FUNCTIONS)]
        self.exports = self.read_exports()

    def numbers(self, section):
        reader = Reader(self.sections[section])
        return [reader.unsigned() for _ in reader.each()]

    def read_types(self):
        """The types of functions: what each takes and gives."""
        reader, found = Reader(self.sections[self.TYPES]), []
        for _ in reader.each():
            if reader.byte() != 0x60:
                raise Unknown('a type that is none of a function')
            found.append((reader.sized(), reader.sized()))
        return found

    def read_exports(self):
        """The functions that are exported, by their names."""
        reader, found = Reader(self.sections[self.EXPORTS]), {}
        for _ in reader.each():
            name, kind, index = reader.sized(), reader.byte(), reader.unsigned()
            if kind == 0:
                found[name.decode()] = index
            elif (kind, name) != (2, b'memory') and kind != 3:
                raise Unknown(f'the export {name.decode()} of kind {kind}')
        return found

    def outer(self, index):
        """The type and the body of the function that is exported in the place of another."""
        takes, gives = self.types[self.functions[index]]
        if {*takes, *gives} - {I32, I64}:
            raise Unknown(f'an export that takes {takes.hex()} and gives {gives.hex()}')
        words = [
            GET_LOCAL + unsigned(at) + (EXTEND if kind == I64 else b'')
            for at, kind in enumerate(takes)
        ]
        words += [CALL + unsigned(index), WRAP if gives == bytes([I64]) else b'', END]
        kind = bytes([I32]) * len(takes), bytes([I32]) * len(gives)
        return kind, b'\x00' + b''.join(words)

    def bodies(self):
        reader = Reader(self.sections[self.CODE])
        return [
            Body(reader.sized(), len(self.types[self.functions[at]][0])).lowered()
            for at in reader.each()
        ]

    def lowered(self):
        """The sections of the lowered module, by their numbers."""
        if self.sections.get(self.IMPORTS, b'\x00') != b'\x00':
            raise Unknown('imports')
        outers = {name: self.outer(index) for name, index in self.exports.items()}
        types = list(dict.fromkeys([*self.types, *(kind for kind, _ in outers.values())]))
        if types[: len(self.types)] != self.types:
            raise Unknown('a type that is there twice')
        functions = [*self.functions, *(types.index(kind) for kind, _ in outers.values())]
        bodies = [*self.bodies(), *(body for _, body in outers.values())]
        names = [
            sized(name.encode()) + b'\x00' + unsigned(len(self.functions) + at)
            for at, name in enumerate(outers)
        ]
        return {
            **self.others(),
            self.TYPES: listed([b'\x60' + sized(takes) + sized(gives) for takes, gives in types]),
            self.FUNCTIONS: listed([unsigned(index) for index in functions]),
            self.EXPORTS: listed([sized(b'memory') + b'\x02\x00', *names]),
            self.CODE: listed([sized(body) for body in bodies]),
        }

    def others(self):
        """The sections that hold no functions."""
        found = {}
        for number, data in self.sections.items():
            reader = Reader(data)
            if number == self.DATA_COUNT:
                found[number] = data
            elif number == self.GLOBALS:
                see_globals(data)
                found[number] = data
            elif number == self.TABLES:
                found[number] = listed(
                    [bytes([reader.byte()]) + limits(reader) for _ in reader.each()]
                )
            elif number == self.MEMORIES:
                found[number] = listed([limits(reader, MOST_PAGES) for _ in reader.each()])
            elif number == self.ELEMENTS:
                found[number] = segments(data, read_indices)
            elif number == self.DATA:
                found[number] = segments(data, Reader.sized)
            elif number > self.DATA_COUNT or number == 8:
                raise Unknown(f'the section {number}')
        return found


# The order of sections in a file, which is that of their numbers but for the count of data.
ORDER = [1, 2, 3, 4, 5, 6, 7, 9, 12, 10, 11]


def lowered(module, version):
    """The bytes of the lowered module."""
    lowering = Lowering(module)
    sections = lowering.lowered()
    out = bytearray(lowering.head)
    for number in ORDER:
        if number in sections:
            out += bytes([number]) + sized(sections[number])
    return bytes(out) + b'\x00' + sized(sized(MARK) + version.encode())


def main():
    source, goal, version = sys.argv[1:]
    try:
        Path(goal).write_bytes(lowered(Path(source).read_bytes(), version))
    except Unknown as fault:
        sys.exit(f'tools/wasm/lower.py: {fault}')


if __name__ == '__main__':
    main()
