#!/usr/bin/env python3
"""How many positions `hexd solve` enters for openings: openings/positions.py [--out FILE] NAME..

That is the least budget with which it wins; with one less it answers `unknown`. A NAME is as for openings/find.py, a
size standing for all its openings. What is found is printed, as NAME and the number, and put into FILE, which is
positions.tsv beside this program if it isn't said. It begins with the number that stands there, or with 1. If that is
right it takes two runs, and else some ten times what openings/find.py takes.

HEXD names the program; if it isn't set that is bin/hexd.
"""

import argparse
import sys
from pathlib import Path

from find import INTERRUPTED, named, solved
from openings import POSITIONS, positions, put_whole
from programs import checked


def is_enough(opening, budget):
    return solved(opening, budget)[0].startswith(b"won ")


def least_budget(opening, guess):
    """The least budget that is enough: the guess, or by doubling and halves."""
    if is_enough(opening, guess):
        if guess == 1 or not is_enough(opening, guess - 1):
            return guess
        few, enough = 0, guess - 1
    else:
        few, enough = guess, 2 * guess
        while not is_enough(opening, enough):
            few, enough = enough, 2 * enough
    while 1 < enough - few:
        middle = (few + enough) // 2
        few, enough = (few, middle) if is_enough(opening, middle) else (middle, enough)
    return enough


def main():
    parser = argparse.ArgumentParser(description=__doc__, formatter_class=argparse.RawDescriptionHelpFormatter)
    parser.add_argument("names", metavar="NAME", nargs="+")
    parser.add_argument("--out", type=Path, default=POSITIONS, metavar="FILE")
    options = parser.parse_args()
    try:
        openings = named(options.names, True)
    except ValueError as why:
        print(f"openings/positions.py: {why}", file=sys.stderr)
        return 1
    checked(b"")  # If it has to be built.
    known = positions(options.out)
    for opening in openings:
        known[opening] = least_budget(opening, known.get(opening, 1))
        put_whole(options.out, "".join(f"{name}\t{count}\n" for name, count in sorted(known.items())).encode())
        print(opening, known[opening], sep="\t", flush=True)
    return 0


if __name__ == "__main__":
    try:
        sys.exit(main())
    except KeyboardInterrupt:
        sys.exit(INTERRUPTED)
