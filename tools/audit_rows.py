#!/usr/bin/env python3
"""Plays sessions with `--trace`, compares the trees of their traces with what is worked out by hand,
and has the traces, and changed ones, audited by `bin/hexd audit`.

    tools/audit_rows.py

It says nothing if all is as it has to be; else it names what differs, and ends with status 1.
"""

import struct
import sys
import tempfile
from pathlib import Path

from programs import ROOT, run

sys.path.insert(0, str(ROOT / "examples"))
from traces import children, trees

FRONT = 128  # bytes before the words of a tree: a name of 8, and 15 fields
RECORD_AT, TALLY_AT = 144, 168  # in the trace of one playout on size 2
wrong = []


def expect(name, got, want):
    """Notes what differs."""
    if got != want:
        wrong.append("%s: %r in place of %r" % (name, got, want))


def session(words, lines):
    """The trace of a session."""
    with tempfile.TemporaryDirectory() as folder:
        trace = Path(folder, "trace")
        _, status = run("htp", "--hsearch", "off", *words, "--trace", str(trace), given=lines)
        expect("status of " + " ".join(words), status, 0)
        return trace.read_bytes()


def audit(name, trace, line):
    """What the audit has to say."""
    expect(name, run("audit", given=trace), (line, 0 if line.startswith(b"yes") else 1))


def first_tree(trace):
    """The words of the first tree of a trace, and its root's first word."""
    fields, words = next(trees(trace))
    return words, fields["playouts"] + 2


def root_children(trace):
    """The visits, wins, seen visits and seen wins of each child of the root of the first tree."""
    words, root = first_tree(trace)
    return [(visits, wins, words[n + 3] >> 32, words[n + 3] % 2**32) for _, visits, wins, n in children(words, root)]


def counts(trace):
    """How many records the first tree has, the visits of its root, and its linked blocks beside the root's."""
    words, root = first_tree(trace)
    blocks, nodes = 0, [root]
    while nodes:
        below = [node for *_, node in children(words, nodes.pop())]
        blocks += below != []
        nodes += below
    return sum(word != 0 for word in words[2:root]), words[root + 2] >> 32, blocks - 1


def changed(trace, at, byte):
    return trace[:at] + bytes([byte]) + trace[at + 1 :]


def two_walks_on_one_cell(workers):
    """A tree of two playouts on size 2, both from a1: neither worker had added when the other chose."""
    tree = [0] * 28
    tree[0], tree[1] = 28, 4
    tree[2], tree[3] = 2 * 12 + 1, 2 * 12
    tree[5], tree[6] = 8, 2 << 32 | 1
    tree[8], tree[9], tree[11] = 4, 15, 4
    tree[14], tree[15] = 2 << 32 | 1, 2 << 32 | 1
    tree[16], tree[20], tree[24] = 257, 514, 771
    tree[23], tree[27] = 1 << 32 | 1, 1 << 32
    fields = [2, 0, 0, 0, 0, 0, 15, 0, workers, 2, 0, 1024, 8, 180, len(tree)]
    return b"HEXTREE1" + struct.pack("<%dQ" % (len(fields) + len(tree)), *fields, *tree)


def moved(trace, by, behind):
    """The trace of one playout with its root's block moved by so many words, and so many claimed after it."""
    fields = struct.unpack_from("<15Q", trace, 8)
    tree = list(struct.unpack_from("<27Q", trace, FRONT))
    next_word = 27 + by + behind
    tree = tree[:7] + [0] * by + tree[7:] + [0] * behind
    tree[0], tree[2], tree[4] = next_word, tree[2] + 2 * by, tree[4] + by
    return b"HEXTREE1" + struct.pack("<%dQ" % (15 + len(tree)), *fields[:14], next_word, *tree)


def main():
    one = session(["--playouts", "1", "--seed", "0"], b"boardsize 2\ngenmove b\n")
    expect("one playout", root_children(one), [(1, 0, 1, 0), (0, 0, 0, 0), (0, 0, 0, 0), (0, 0, 1, 0)])
    expect("length of one playout", len(one), 344)
    four = session(["--playouts", "4"], b"boardsize 2\ngenmove b\n")
    expect("four playouts", [child[0] for child in root_children(four)], [1, 1, 1, 1])
    forced = session(["--playouts", "4"], b"boardsize 2\nplay b a2\nplay w b2\ngenmove b\n")
    expect("a forced win", root_children(forced), [(2, 2, 2, 2), (2, 2, 2, 2)])

    # An area of 1,024 words has room for the root's block, of 488, and one more, of 484.
    full = session(["--words", "1024", "--workers", "8"], b"genmove b\n")
    expect("a full area", counts(full), (10_000, 10_000, 1))

    audit("no bytes", b"", b"yes 0\n")
    audit("a full area", full, b"yes 1\n")
    audit("three trees", one + four + forced, b"yes 3\n")
    audit("one tree twice", one + one, b"yes 2\n")
    audit("another result", changed(one, RECORD_AT, 22), b"no 0 3\n")
    audit("no record", changed(one, RECORD_AT, 0), b"no 0 3\n")
    audit("a win less", changed(one, TALLY_AT, one[TALLY_AT] - 1), b"no 0 4\n")
    audit("a win more", changed(one, TALLY_AT, one[TALLY_AT] + 1), b"no 0 4\n")
    audit("a tree that is cut", one + one[:-1], b"no 1 1\n")
    audit("a bad tree before a good one", changed(one, TALLY_AT, 7) + one, b"no 0 4\n")
    audit("two workers on one cell", two_walks_on_one_cell(2), b"yes 1\n")
    audit("two visits beside none, by one worker", two_walks_on_one_cell(1), b"no 0 6\n")
    audit("a root block moved by 489", moved(one, 489, 0), b"yes 1\n")
    audit("a root block moved by 100, and NEXT 516", moved(one, 100, 389), b"yes 1\n")
    audit("NEXT 516 after a root block at the start", moved(one, 0, 489), b"no 0 6\n")
    # Short texts that claim the largest tree, one after the other.
    claims = two_walks_on_one_cell(2)
    claims = claims[:96] + struct.pack("<Q", 16_777_216) + claims[104:]
    audit("many claims of a large tree", claims * 20_000, b"yes 20000\n")
    for line in wrong:
        print("tools/audit_rows.py:", line)
    return 1 if wrong else 0


if __name__ == "__main__":
    sys.exit(main())
