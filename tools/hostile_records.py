"""Records (SGF) as a stranger may send them, to make a program slow, large or talkative: tools/check_records reads them."""

import random

CELLS = [f"[{column}{row}]" for row in range(1, 12) for column in "abcdefghijk"]
# What is no character set though Python has a codec of it, and what isn't known at all.
NAMED = ["unicode_escape", "undefined", "rot13", "idna", "x" * 1_000]


def filled(head, piece, tail=b""):
    """What fills a length with pieces between head and tail."""
    return lambda length: head + piece * ((length - len(head) - len(tail)) // len(piece)) + tail


def cells(head, name, tail):
    """A property with as many cells as there is room for, one after another."""
    piece = "".join(CELLS).encode()
    return filled(head + name, piece, tail)


def halves(length):
    """A record whose first half sets stones on one cell, and which takes them away on another in the second."""
    return filled(b"(;SZ[3]AB", b"[a1]", b";AE")(length // 2)


def named(name):
    """A record that names a character set, and isn't in UTF-8."""
    return b"\xff(;CA[%s]GM[\\ud800]SZ[5])" % name.encode()


def noise(length):
    """The characters of records, one like another."""
    return bytes(random.Random(1).choices(b"()[;]\\BWA1 \n", k=length))


# By names: records that are as they are, and functions of a length.
SHORT = {
    "nothing": b"",
    "an answer in a value": b"(;GM[1\n\n=7 forged\n\n= x]SZ[5])",
    "a terminal's commands": b"(;SZ[\x1b]0;title\x07\x1b[2J])",
    "an answer in a move": b"(;SZ[5];B[\n\n= x\n\n])",
    "an answer in a stone": b"(;SZ[5]AB[\n\n= x\n\n])",
    "a line that is written from right to left": "(;SZ[5\u202e\u2028\u0085])".encode(),
    "a byte order mark alone": b"\xef\xbb\xbf",
    "digits of another script": "(;SZ[\u0663])".encode(),
    **{f"the character set {name[:20]}": named(name) for name in NAMED},
}
LONG = {
    "stones that are taken away": lambda length: filled(halves(length), b"[b2]", b";B[a1])")(length),
    "stones that are set again": cells(b"(;SZ[11];", b"AB", b";B[a1])"),
    "nodes that set a stone and take it away": filled(b"(;SZ[3]", b";AB[a1];AE[a1]", b";B[a1])"),
    "stones of the root": cells(b"(;SZ[11]", b"AW", b";B[a1])"),
    "stones that are none": filled(b"(;SZ[3];AB[a1]", b"[zz9]", b";B[a1])"),
    "stones in the midst of a game": filled(b"(;SZ[2];B[a1];AW", b"[b2]", b")"),
    "passes": filled(b"(;SZ[2]", b";B[]", b")"),
    "sides that are swapped": filled(b"(;SZ[2];B[a1]", b";W[swap-sides]", b")"),
    "resignations": filled(b"(;SZ[2];B[a1]", b";W[resign]", b")"),
    "moves on one cell": filled(b"(;SZ[2]", b";B[a1]", b")"),
    "a node of many moves": filled(b"(;SZ[2];B", b"[a1]", b")"),
    "side lines that are left out": filled(b"(;SZ[2];B[a1](;W[b2])", b"(;W[??])", b")"),
    "side lines with stones": filled(b"(;SZ[2];B[a1](;W[b2])", b"(;AW[b2])", b")"),
    "empty nodes": filled(b"(;SZ[2]", b";", b")"),
    "trees in trees": filled(b"(;SZ[2]", b"(;"),
    "trees in trees, with comments": filled(b"(;SZ[2]", b"(;C[x]"),
    "games": filled(b"(;SZ[2])", b"(;B[a1])"),
    "open brackets": filled(b"(;SZ[2]", b"["),
    "closed brackets": filled(b"(;SZ[2]", b"]", b")"),
    "open trees": filled(b"", b"("),
    "closed trees": filled(b"(;SZ[2]", b")"),
    "names of properties": filled(b"(;SZ[2]", b"A[]Aa[]", b")"),
    "a long name": filled(b"(;SZ[2]", b"A", b"[])"),
    "a long value": filled(b"(;SZ[2", b"2", b"])"),
    "a value of spaces": filled(b"(;SZ[", b" ", b"])"),
    "backslashes": filled(b"(;SZ[2]C[", b"\\", b")"),
    "zeros": filled(b"(;SZ[2])", b"\0"),
    "brackets before the record": filled(b"", b"( ", b";SZ[2])"),
    "noise": noise,
    "noise in a record": lambda length: b"(;SZ[2]" + noise(length - 8) + b")",
}
