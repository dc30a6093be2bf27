"""A module of WebAssembly whose table has places of 32 bits where it had 64, which engines had later than memories of 64 bits:
Node 20 lacks them. The table's flag and its elements' offsets change, and before each call by the table its place is wrapped."""

TABLE, ELEMENTS, CODE = 4, 9, 10
HEAD = 8
OF_64_BITS = 4
I64_CONST, I32_CONST, CALL_BY_TABLE, WRAP = 0x42, 0x41, 0x11, b"\xa7"
# How many numbers follow an instruction's byte; or bytes; or other bytes that say so.
NUMBERS = {
    **dict.fromkeys([0x00, 0x01, 0x05, 0x0B, 0x0F, 0x1A, 0x1B, 0xD1, *range(0x45, 0xC5)], 0),
    **dict.fromkeys([0x02, 0x03, 0x04, 0x0C, 0x0D, 0x10, *range(0x20, 0x27), 0x3F, 0x40, I32_CONST, I64_CONST, 0xD0, 0xD2], 1),
    **dict.fromkeys([CALL_BY_TABLE, *range(0x28, 0x3F)], 2),
}
BYTES = {0x43: 4, 0x44: 8}
BRANCHES, PREFIX = 0x0E, 0xFC
AFTER_PREFIX = {**dict.fromkeys(range(8), 0), 8: 2, 9: 1, 10: 2, 11: 1}


class Reader:
    """The bytes of a module, from a place on."""

    def __init__(self, content, at=0):
        self.content, self.at = content, at

    def byte(self):
        self.at += 1
        return self.content[self.at - 1]

    def number(self):
        """Seven bits in each byte, the lowest first."""
        value = shift = 0
        more = True
        while more:
            byte = self.byte()
            value, shift, more = value | (byte & 127) << shift, shift + 7, byte & 128
        return value

    def skip(self, numbers):
        for _ in range(numbers):
            self.number()

    def instruction(self):
        """Goes behind one, and gives its byte; ValueError for one that is not known here."""
        kind = self.byte()
        if kind in NUMBERS:
            self.skip(NUMBERS[kind])
        elif kind in BYTES:
            self.at += BYTES[kind]
        elif kind == BRANCHES:
            self.skip(self.number() + 1)
        elif kind == PREFIX and (rest := self.number()) in AFTER_PREFIX:
            self.skip(AFTER_PREFIX[rest])
        else:
            raise ValueError(f"there is an instruction {kind:#x}, which is not known")
        return kind


def number(value):
    return bytes([value]) if value < 128 else bytes([128 | value & 127]) + number(value >> 7)


def sized(content):
    return number(len(content)) + content


def function(body):
    """A function's body with a wrap before each call by the table."""
    reader, pieces, last = Reader(body), [], 0
    for _ in range(reader.number()):
        reader.skip(2)
    while reader.at < len(body):
        at = reader.at
        if reader.instruction() == CALL_BY_TABLE:
            pieces += [body[last:at], WRAP]
            last = at
    return b"".join([*pieces, body[last:]])


def code(section):
    reader = Reader(section)
    bodies = []
    for _ in range(count := reader.number()):
        size = reader.number()
        bodies.append(sized(function(section[reader.at : reader.at + size])))
        reader.at += size
    return number(count) + b"".join(bodies)


def table(section):
    """One table: its count, its kind, and its flags."""
    if section[0] != 1 or not section[2] & OF_64_BITS:
        raise ValueError("there is not one table of 64 bits")
    return section[:2] + bytes([section[2] & ~OF_64_BITS]) + section[3:]


def elements(section):
    """One list of elements at a place: its count, its kind, and the constant."""
    if section[0] != 1 or section[1] != 0 or section[2] != I64_CONST:
        raise ValueError("there is not one list of elements")
    return section[:2] + bytes([I32_CONST]) + section[3:]


CHANGED = {TABLE: table, ELEMENTS: elements, CODE: code}


def narrowed(module):
    """The module with the other table."""
    reader, parts = Reader(module, HEAD), [module[:HEAD]]
    while reader.at < len(module):
        kind, size = reader.byte(), reader.number()
        section = module[reader.at : reader.at + size]
        reader.at += size
        parts += [bytes([kind]), sized(CHANGED[kind](section) if kind in CHANGED else section)]
    return b"".join(parts)
