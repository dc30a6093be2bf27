#!/usr/bin/env python3
"""Reads the traces that a TraceArchive wrote: prints the root's children and the main line.

    examples/traces.py NAME

For each tree in the file: the player to move, the board's size and the number of playouts, then a
line `CELL VISITS WINS` for each child of the root, and last the main line, which goes to a child of
most visits, of these the one with the least cell, as long as there is a block below. It checks
nothing: docs/change/TREE.md says what each word holds.
"""

import signal
import struct
import sys

NAME = b"HEXTREE1"
FIELDS = (
    "size", "black low", "black high", "white low", "white high", "colour", "allowed low",
    "allowed high", "workers", "playouts", "seed", "words", "expand", "weight", "count",
)


def words_at(data, at, count):
    """Words of 64 bits, the low byte first."""
    end = at + 8 * count
    if end > len(data):
        sys.exit("the trace is cut short")
    return struct.unpack("<%dQ" % count, data[at:end])


def trees(data):
    """The fields and the words of each tree."""
    at = 0
    while at < len(data):
        if data[at : at + 8] != NAME:
            sys.exit("no trace begins at byte %d" % at)
        fields = dict(zip(FIELDS, words_at(data, at + 8, len(FIELDS))))
        at += 8 + 8 * len(FIELDS)
        yield fields, words_at(data, at, fields["count"])
        at += 8 * fields["count"]


def children(words, node):
    """The cell, visits, wins and first word of each node of the block below this one."""
    block = words[node + 1]
    if block == 0:
        return []
    nodes = [block + 4 + 4 * place for place in range(words[block + 3])]
    return [(words[n] % 256, words[n + 2] >> 32, words[n + 2] % 2**32, n) for n in nodes]


def vertex(cell, size):
    """A cell as the protocol writes it: a letter for the column and the row from 1."""
    return "%s%d" % (chr(ord("a") + cell % size), cell // size + 1)


def main_line(words, root):
    """The cells from the root down."""
    line, node = [], root
    while row := children(words, node):
        cell, visits, _, node = max(row, key=lambda child: (child[1], -child[0]))
        if visits == 0:
            break
        line.append(cell)
    return line


def main():
    if len(sys.argv) != 2:
        sys.exit("usage: traces.py NAME")
    # Who reads a part of it, as head does, ends it.
    signal.signal(signal.SIGPIPE, signal.SIG_DFL)
    try:
        with open(sys.argv[1], "rb") as file:
            data = file.read()
    except OSError as fault:
        sys.exit("traces.py: %s: %s" % (sys.argv[1], fault.strerror))
    for fields, words in trees(data):
        size, root = fields["size"], fields["playouts"] + 2
        player = ("black", "white")[fields["colour"]]
        print("%s to move, size %d, %d playouts" % (player, size, fields["playouts"]))
        for cell, visits, wins, _ in children(words, root):
            print(vertex(cell, size), visits, wins)
        print("main line:", *[vertex(cell, size) for cell in main_line(words, root)])


if __name__ == "__main__":
    main()
