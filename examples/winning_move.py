#!/usr/bin/env python3
"""Prints the winning move of an answer of `hexd solve`:

    bin/hexd solve <GAME.sgf | examples/winning_move.py

The claim of the certificate, its last line, names a line. If the player to move wins (`semi`), that line is a `move`,
which has the cell, or a `key` of two lines, and the cell is the empty one in which these two meet: his stone there
leaves the other player no answer. If the other player wins (`full`), no move wins, and the status is 1, as it is if
the answer has no certificate; a line on standard error says which.

The theorem on the certificate says that the player wins with himself to move, and names no cell."""

import sys

# The lines of a certificate before the derivation lines.
HEAD = 5


EDGES = {"edge1", "edge2"}


def ends_of(lines):
    """For each line the two ends of the connection that it gives, as the certificate names them."""
    ends = []
    for name, *words in map(str.split, lines):
        if name == "adj":
            ends.append(set(words))
        elif name in ("or", "lift"):
            ends.append(ends[int(words[0])])
        elif name in ("and", "key"):
            ends.append(ends[int(words[0])] ^ ends[int(words[1])])
        else:
            ends.append(EDGES)
    return ends


def winning_move(certificate):
    """The winning move of the player to move by a certificate of hexd's that claims semi; None by one that claims full."""
    lines = certificate.splitlines()[HEAD:]
    kind, number = lines[-1].split()
    if kind == "full":
        return None
    name, *words = lines[at := int(number)].split()
    while name == "lift":  # Of an entry of the empty scope it gives the same one.
        name, *words = lines[at := int(words[0])].split()
    if name == "move":
        return words[0]
    ends = ends_of(lines[:at])
    (cell,) = ends[int(words[0])] & ends[int(words[1])]
    return cell


def main():
    head, _, certificate = sys.stdin.read().partition("\n")
    if not head.startswith("won "):
        print(f"no certificate: {head or 'nothing'}", file=sys.stderr)
        return 1
    move = winning_move(certificate)
    print(move or f"no move wins: {head.removeprefix('won ')} does", file=sys.stdout if move else sys.stderr)
    return 0 if move else 1


if __name__ == "__main__":
    sys.exit(main())
