#!/usr/bin/env python3
"""lower.py IN.wasm OUT.wasm: a module of 64-bit addresses as one of 32-bit addresses, which every browser takes.

Each address is cut to 32 bits just before it is used; all else stays as it is. A memory of 32 bits has no byte past 4 GiB,
so an address that the module uses rightly is the same number in both. It stops at each section, instruction and kind of
operand that it doesn't know.
"""
import sys

I32, I64 = 0x7F, 0x7E
WRAP, EXTEND_U, EXTEND_S = b"\xa7", b"\xad", b"\xac"
LOADS, STORES = range(0x28, 0x36), range(0x36, 0x3F)
STORED = {0x36: I32, 0x37: I64, 0x38: 0x7D, 0x39: 0x7C, 0x3A: I32, 0x3B: I32, 0x3C: I64, 0x3D: I64, 0x3E: I64}


def unsigned(value):
    out = bytearray()
    while True:
        low, value = value & 0x7F, value >> 7
        out.append(low | (0x80 if value else 0))
        if not value:
            return bytes(out)


def signed(value):
    out = bytearray()
    while not -64 <= value < 64:
        out.append(value & 0x7F | 0x80)
        value >>= 7
    return bytes([*out, value & 0x7F])


class Reader:
    """The bytes of a module, read from the front."""

    def __init__(self, data):
        self.data, self.at = data, 0

    def byte(self):
        self.at += 1
        return self.data[self.at - 1]

    def number(self):
        value = shift = 0
        while True:
            byte = self.byte()
            value |= (byte & 0x7F) << shift
            shift += 7
            if byte < 0x80:
                return value

    def signed(self):
        value = shift = 0
        while True:
            byte = self.byte()
            value |= (byte & 0x7F) << shift
            shift += 7
            if byte < 0x80:
                return value - (1 << shift) if byte & 0x40 else value

    def bytes(self, count):
        self.at += count
        assert self.at <= len(self.data), "the module ends too early"
        return self.data[self.at - count : self.at]

    def ended(self):
        return self.at == len(self.data)


def limits(reader):
    """The limits of a memory or table, without the mark of 64 bits; and whether it had that mark."""
    flags = reader.byte()
    assert flags in (0, 1, 4, 5), f"limits {flags}"
    numbers = [reader.number() for _ in range(1 + (flags & 1))]
    return bytes([flags & 1]) + b"".join(map(unsigned, numbers)), flags >= 4


class Module:
    """What a function's code is lowered by: which tables and whether the memory have 64 bits, and each function's type."""

    def __init__(self):
        self.types, self.functions, self.tables, self.wide = [], [], [], False

    def section(self, kind, reader):
        """A section with 32-bit addresses."""
        take = {0: None, 1: self.read_types, 2: self.imports, 3: self.read_functions, 4: self.table, 5: self.memory}
        take |= {6: None, 7: None, 9: self.elements, 10: self.code, 11: self.segments, 12: None}
        assert kind in take, f"section {kind}"
        return take[kind](reader) if take[kind] else reader.data

    def read_types(self, reader):
        for _ in range(reader.number()):
            assert reader.byte() == 0x60, "a type that is no function"
            self.types.append(tuple(reader.bytes(reader.number()) for _ in range(2)))
        return reader.data

    def imports(self, reader):
        for _ in range(reader.number()):
            reader.bytes(reader.number()), reader.bytes(reader.number())
            assert reader.byte() == 0, "an import that is no function"
            self.functions.append(reader.number())
        return reader.data

    def read_functions(self, reader):
        self.functions += [reader.number() for _ in range(reader.number())]
        return reader.data

    def table(self, reader):
        count, out = reader.number(), b""
        for _ in range(count):
            kind = reader.byte()
            narrow, wide = limits(reader)
            self.tables.append(wide)
            out += bytes([kind]) + narrow
        return unsigned(count) + out

    def memory(self, reader):
        assert reader.number() == 1, "memories"
        narrow, self.wide = limits(reader)
        assert self.wide, "the memory has 32-bit addresses already"
        return unsigned(1) + narrow

    def place(self, reader, wide):
        """A constant place of a segment."""
        op = reader.byte()
        assert op == (0x42 if wide else 0x41), f"place {op:#x}"
        value = reader.signed()
        assert reader.byte() == 0x0B and 0 <= value < 1 << 31, f"place {value}"
        return b"\x41" + signed(value) + b"\x0b"

    def elements(self, reader):
        count, out = reader.number(), b""
        for _ in range(count):
            assert reader.number() == 0, "elements"
            out += b"\x00" + self.place(reader, self.tables[0])
            size = reader.number()
            out += unsigned(size) + b"".join(unsigned(reader.number()) for _ in range(size))
        return unsigned(count) + out

    def segments(self, reader):
        count, out = reader.number(), []
        for _ in range(count):
            assert reader.number() == 0, "segment"
            place = self.place(reader, True)
            size = reader.number()
            out.append(b"\x00" + place + unsigned(size) + reader.bytes(size))
        return unsigned(count) + b"".join(out)

    def code(self, reader):
        count, out = reader.number(), []
        first = len(self.functions) - count
        for place in range(count):
            body = Reader(reader.bytes(reader.number()))
            body = Body(self, body, len(self.types[self.functions[first + place]][0])).lowered()
            out.append(unsigned(len(body)) + body)
        return unsigned(count) + b"".join(out)


class Body:
    """A function's code, lowered one instruction after the other."""

    def __init__(self, module, reader, parameters):
        self.module, self.reader, self.out = module, reader, bytearray()
        self.locals = [(reader.number(), reader.byte()) for _ in range(reader.number())]
        self.next = parameters + sum(count for count, _ in self.locals)
        self.spares = {}

    def spare(self, kind, which=0):
        """A local of its own for a value that stands above an address."""
        if (kind, which) not in self.spares:
            self.spares[kind, which] = self.next
            self.locals.append((1, kind))
            self.next += 1
        return unsigned(self.spares[kind, which])

    def lowered(self):
        while not self.reader.ended():
            self.instruction(self.reader.byte())
        head = b"".join(unsigned(count) + bytes([kind]) for count, kind in self.locals)
        return unsigned(len(self.locals)) + head + bytes(self.out)

    def copy(self, op, *reads):
        start = self.reader.at
        for read in reads:
            read()
        self.out += bytes([op]) + self.reader.data[start : self.reader.at]

    def instruction(self, op):
        reader = self.reader
        number = reader.number
        if op in LOADS:
            self.out += WRAP + bytes([op]) + self.address()
        elif op in STORES:
            spare = self.spare(STORED[op])
            self.out += b"\x21" + spare + WRAP + b"\x20" + spare + bytes([op]) + self.address()
        elif op == 0x3F:
            self.copy(op, number)
            self.out += EXTEND_U
        elif op == 0x40:
            self.grow()
        elif op == 0xFC:
            self.prefixed(number())
        elif op == 0x11:
            kind, table = number(), number()
            self.out += (WRAP if self.module.tables[table] else b"") + b"\x11" + unsigned(kind) + unsigned(table)
        elif op in (0x02, 0x03, 0x04, 0x41, 0x42):
            self.copy(op, reader.signed)
        elif op in (0x0C, 0x0D, 0x10, *range(0x20, 0x25)):
            self.copy(op, number)
        elif op == 0x0E:
            self.copy(op, lambda: [number() for _ in range(number() + 1)])
        elif op == 0x1C:
            self.copy(op, lambda: reader.bytes(number()))
        elif op in (0x43, 0x44):
            self.copy(op, lambda: reader.bytes(4 if op == 0x43 else 8))
        elif op in (0x00, 0x01, 0x05, 0x0B, 0x0F, 0x1A, 0x1B, *range(0x45, 0xC5)):
            self.out.append(op)
        else:
            sys.exit(f"lower: instruction {op:#x}")

    def address(self):
        """The alignment and the offset of an address."""
        align, offset = self.reader.number(), self.reader.number()
        assert align < 8 and offset < 1 << 32, f"address {align} {offset}"
        return unsigned(align) + unsigned(offset)

    def grow(self):
        """More pages than 32 bits can say are refused, as the memory would refuse them."""
        assert self.reader.number() == 0, "memory"
        pages = self.spare(I64)
        self.out += b"\x22" + pages + b"\x42" + b"\x80\x80\x04" + b"\x56\x04\x7e\x42\x7f\x05\x20" + pages
        self.out += WRAP + b"\x40\x00" + EXTEND_S + b"\x0b"

    def prefixed(self, op):
        number = self.reader.number
        if op <= 7:
            self.out += b"\xfc" + unsigned(op)
            return
        assert op in (10, 11), f"instruction 0xfc {op}"
        places = [number() for _ in range(2 if op == 10 else 1)]
        length, middle = self.spare(I64), self.spare(I64, 1) if op == 10 else self.spare(I32)
        self.out += b"\x21" + length + b"\x21" + middle + WRAP + b"\x20" + middle + (WRAP if op == 10 else b"")
        self.out += b"\x20" + length + WRAP + b"\xfc" + unsigned(op) + bytes(places)


def lower(data):
    reader, module = Reader(data), Module()
    out = [reader.bytes(8)]
    assert out[0] == b"\0asm\1\0\0\0", "no module"
    while not reader.ended():
        kind = reader.byte()
        body = module.section(kind, Reader(reader.bytes(reader.number())))
        out.append(bytes([kind]) + unsigned(len(body)) + body)
    return b"".join(out)


if __name__ == "__main__":
    with open(sys.argv[1], "rb") as given:
        made = lower(given.read())
    with open(sys.argv[2], "wb") as out:
        out.write(made)
