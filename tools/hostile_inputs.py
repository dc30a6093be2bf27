#!/usr/bin/env python3
"""Makes the inputs that cost an audit, a checker or the solver most: SECURITY.md has the figures.

    tools/hostile_inputs.py KIND OUT [BYTES]

Fills OUT with at most so many bytes, 67108864 if none are given. The kinds:

    broad   one tree on size 11, whose blocks have some hundred nodes
    small   one tree on size 3 with each position of the game: the most blocks that fit
    deep    one tree of at most a million playouts, each of which ends 110 levels below the root
    short   texts of 344 bytes that claim the largest tree
    numbers a certificate whose lines have the most numbers
    ors     an accepted one of version 3, of as many lines as there may be, that have the most numbers
    latest  an accepted one of version 4, of as many lines as there may be
    nested  a record whose trees nest as deep as they may
    named   a record of nodes with a property each

The texts of `short` are closed trees, and all are read. In the other traces all links and records are
right, and all counts are 0: an audit reads the whole text, makes each playout again and finds the
counts wrong at the end (flaw 4). Eight texts of `deep` fit into an input.
"""

import struct
import sys

LIMIT = 67_108_864
FRONT_BYTES = 128
RECORDS_AT = 2
MOST_PLAYOUTS = 1_000_000
# A line of a certificate has at most so many numbers, and trees of a record nest so deep below the outermost one.
MOST_NUMBERS, DEPTH = 127, 63

# Black's stones on size 11 that join his edges, so that he wins each playout.
JOINED = sum(1 << 11 * row for row in range(11))

# The words of a trace after its name: one playout on size 2, of a tree of 16,777,216 words.
ONE_PLAYOUT = [
    2, 0, 0, 0, 0, 0, 15, 0, 1, 1, 0, 16777216, 8, 180, 27, 27, 1, 23, 0, 7, 4294967297, 0, 3, 15,
    0, 4, 0, 0, 4294967296, 4294967296, 257, 0, 0, 0, 514, 0, 0, 0, 771, 0, 0, 4294967296,
]


def text(size, black, playouts, area, words):
    """The bytes of a text in which Black is to move and may play on every empty cell."""
    allowed = (1 << size * size) - 1 & ~black
    fields = [size, black % 2**64, black >> 64, 0, 0, 0, allowed % 2**64, allowed >> 64]
    fields += [1, playouts, 0, area, 8, 180, len(words)]
    return b"HEXTREE1" + struct.pack("<%dQ" % (15 + len(words)), *fields, *words)


def front(playouts):
    """NEXT, TICKET, the records and the root's four words."""
    return [0, playouts] + [0] * playouts + [0] * 4


def put_block(words, parent, empties):
    """Puts a block of these cells after the words: the first words of its nodes."""
    start = len(words)
    bits = sum(1 << cell for cell in empties)
    words += [parent, bits % 2**64, bits >> 64, len(empties)]
    for place, cell in enumerate(empties):
        words += [256 * place + cell, 0, 0, 0]
    words[parent + 1] = start
    return [start + 4 + 4 * place for place in range(len(empties))]


def finished(size, black, playouts, words, leaf):
    """The text whose records all name this leaf, and Black as the winner."""
    words[0] = len(words)
    for k in range(playouts):
        words[RECORDS_AT + k] = 2 * leaf
    area = max(1_024, len(words) - playouts - 6)
    return text(size, black, playouts, area, words)


def whole(size, black, limit):
    """One tree, level by level, as far as the bytes go."""
    words = front(1)
    empties = [cell for cell in range(size * size) if not black >> cell & 1]
    queue = [(1 + RECORDS_AT, empties)]
    for parent, empties in queue:
        if FRONT_BYTES + 8 * (len(words) + 4 + 4 * len(empties)) > limit:
            break
        nodes = put_block(words, parent, empties)
        if len(queue) < limit // 32:
            queue += [(x, empties[:k] + empties[k + 1 :]) for k, x in enumerate(nodes)]
    return finished(size, black, 1, words, 1 + RECORDS_AT + 8)


def deep(limit):
    """One block below another, down to the full board, with which every playout ends."""
    empties = [cell for cell in range(121) if not JOINED >> cell & 1]
    least = FRONT_BYTES + 8 * (6 + 4 * len(empties) + 2 * len(empties) * (len(empties) + 1))
    playouts = max(1, min(MOST_PLAYOUTS, (limit - least) // 8))
    words = front(playouts)
    node = playouts + RECORDS_AT
    while empties:
        node = put_block(words, node, empties)[0]
        empties = empties[1:]
    return finished(11, JOINED, playouts, words, node)


def short(limit):
    """Closed trees, one after another."""
    one = b"HEXTREE1" + struct.pack("<42Q", *ONE_PLAYOUT)
    return one * (limit // len(one))


def numbers(limit):
    """A certificate. Its line 1 names lines that don't stand before it, and is the first bad one."""
    head, claim = b"hexcert 2\nsize 3\nplayer black\nblack\nwhite\nadj a1 edge1\n", b"semi 1\n"
    line = b"cases" + 127 * b" 199999" + b"\n"
    return head + line * ((limit - len(head) - len(claim)) // len(line)) + claim


def accepted(version, most_lines, limit):
    """A certificate of so many lines at most, which are as long as they may be, or as the bytes allow: V1's, and then lines `or`
    of its two ways."""
    head = b"hexcert %d\nsize 2\nplayer black\nblack\nwhite\n" % version
    lines = b"adj a2 a1\nadj a1 edge1\nadj a2 b1\nadj b1 edge1\nkey 0 1\nkey 2 3\nor 4 5\nadj a2 edge2\nkey 6 7\n"
    claim, left = b"semi 8\n", most_lines - lines.count(b"\n")
    room = limit - len(head) - len(lines) - len(claim)
    numbers = max(2, min(MOST_NUMBERS, (room // left - 3) // 2))
    line = b"or" + (b" 4 5" * numbers)[: 2 * numbers] + b"\n"
    return head + lines + line * min(left, room // len(line)) + claim


def record(piece, limit):
    """A game that is over, with as many of these pieces behind its end as fit."""
    head, end = b"(;GM[11]SZ[1];B[a1]", b")"
    return head + piece * ((limit - len(head) - len(end)) // len(piece)) + end


MAKERS = {
    "broad": lambda limit: whole(11, JOINED, limit),
    "small": lambda limit: whole(3, 0, limit),
    "deep": deep,
    "short": short,
    "numbers": numbers,
    "ors": lambda limit: accepted(3, 200_000, limit),
    "latest": lambda limit: accepted(4, 1_000_000, limit),
    "nested": lambda limit: record(b"(;" * DEPTH + b")" * DEPTH, limit),
    "named": lambda limit: record(b";A[]", limit),
}


def main():
    if len(sys.argv) not in (3, 4) or sys.argv[1] not in MAKERS:
        sys.exit(__doc__)
    with open(sys.argv[2], "wb") as file:
        file.write(MAKERS[sys.argv[1]](*map(int, sys.argv[3:] or [LIMIT])))


if __name__ == "__main__":
    main()
