#!/usr/bin/env python3
"""Openings near even, by size: openings/even.py [SIZE..] prints the rows of even.tsv for these sizes, or for 3 to 11.

Up to 7 by 7 it is proved who wins (openings.tsv). There those stand whose certificates are longest: two that Black wins, and two
that White wins. On 8 by 8 and beyond hexd looks ahead for White's best answer to each first stone, up to the half turn. From those
whose worth is nearest to 500 thousandths it plays games with itself, each with other nodes for a move, to the first certified
win. Those stand here of which each colour won some, those nearest to halves first. Nothing is proved of these.
examples/match.py --openings takes the file.

HEXD names the program; if it isn't set that is bin/hexd. All sizes take some minutes of a processor.
"""

import sys
from pathlib import Path

from openings import FOLDER, listed, openings_of, vertex

sys.path.append(str(FOLDER.parent / "board"))
import hexd

HEAD = "size", "moves", "winner", "lines", "worth", "black", "games"
SIZES = range(3, 12)
# The largest size of which each opening is proved.
LARGEST_PROVED = max(size for size in SIZES if listed().keys() >= set(openings_of(size)))
OF_A_WINNER, OF_A_SIZE = 2, 6
# So many nodes each first stone gets; games are played from so many of those nearest to even.
NODES, EVEN, TRIED = 150, 500, 8
# With how many nodes a move the games are played, for each colour the same. If one colour wins all of the first ones that is all.
FIRST, FURTHER = (20, 40, 80), (30, 60, 120)


def proved_rows(size):
    """The openings with the longest certificates, two of each winner."""
    rows = []
    for winner in ("black", "white"):
        won = [(entry.lines, opening) for opening, entry in listed().items() if opening.size == size and entry.winner == winner]
        longest = sorted(won, key=lambda it: -it[0])[:OF_A_WINNER]
        rows += [(size, vertex(*opening), winner, lines, "-", "-", "-") for lines, opening in longest]
    return rows


def session(opening, nodes):
    """A session of hexd after an opening, which looks ahead so far."""
    engine = hexd.Engine.start("--size", str(opening.size), "--look", str(nodes), "--playouts", "1", "--weight", "0")
    engine.ask(f"play b {vertex(*opening)}")
    return engine


def worth(opening):
    """What White's best answer to an opening is worth, in thousandths; 0 or 1000 if connections have decided it."""
    with session(opening, NODES) as engine:
        answer = engine.ask("genmove w").text
        if (wins := is_won(engine)) is not None:
            return 1000 * wins
        rows = map(str.split, engine.ask("look-report").text.splitlines()[1:])
        return next(int(row[2]) for row in rows if row[0] == answer)


def is_won(engine):
    """Whether who has just moved wins, by connections; None if they don't say so."""
    plan = engine.ask("mustplay").text
    return True if plan.startswith("win") else False if plan.startswith("lost yes") else None


def black_wins(opening, nodes):
    """Whether Black wins a game of hexd against itself, which ends once it is certified who does."""
    with session(opening, nodes) as engine:
        mover, other = "w", "b"
        while engine.ask("winner").text == "none":
            engine.ask(f"genmove {mover}")
            if (wins := is_won(engine)) is not None:
                return wins == (mover == "b")
            mover, other = other, mover
        return engine.ask("winner").text == "black"


def played(opening):
    """How many games Black has won, and how many were played."""
    won = sum(black_wins(opening, nodes) for nodes in FIRST)
    if won in (0, len(FIRST)):
        return won, len(FIRST)
    return won + sum(black_wins(opening, nodes) for nodes in FURTHER), len(FIRST + FURTHER)


def looked_rows(size):
    """The openings that each colour has won, those nearest to halves first, and then those nearest to an even worth."""
    worths = {opening: worth(opening) for opening in openings_of(size)}
    near = sorted(worths, key=lambda opening: abs(worths[opening] - EVEN))[:TRIED]
    found = [(opening, worths[opening], *played(opening)) for opening in near]
    found = [it for it in found if 0 < it[2] < it[3]]
    found.sort(key=lambda it: (abs(2 * it[2] - it[3]), abs(it[1] - EVEN)))
    return [(size, vertex(*opening), "-", "-", *told) for opening, *told in found[:OF_A_SIZE]]


def rows_of(size):
    return proved_rows(size) if size <= LARGEST_PROVED else looked_rows(size)


def main():
    words = sys.argv[1:]
    if not all(word.isdigit() and int(word) in SIZES for word in words):
        print(f"openings/even.py: sizes are {SIZES[0]} to {SIZES[-1]}", file=sys.stderr)
        return 2
    print(*HEAD, sep="\t")
    for size in map(int, words or SIZES):
        for row in rows_of(size):
            print(*row, sep="\t", flush=True)
    return 0


if __name__ == "__main__":
    sys.exit(main())
