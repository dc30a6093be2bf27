#!/usr/bin/env python3
"""How many positions from the middle of games `hexd solve` decides: openings/middle.py [--budget N] [--first N]

The games stand in middle.sgf, one in a line: on 11 by 11 two stones by chance, then hexd against itself up to 14 to 20 stones
(`--look 25 --playouts 1000 --weight 0`). Of each it prints its number, who wins, or that the budget, 10,000 if it isn't said,
isn't enough, and the processor time and the most memory; then how many are decided. --first is how many games it takes.

HEXD names the program; if it isn't set that is bin/hexd.
"""

import argparse
import sys

from find import INTERRUPTED, answered
from openings import FOLDER

GAMES = FOLDER / "middle.sgf"


def main():
    parser = argparse.ArgumentParser(description=__doc__, formatter_class=argparse.RawDescriptionHelpFormatter)
    parser.add_argument("--budget", type=int, default=10_000, metavar="N")
    parser.add_argument("--first", type=int, metavar="N")
    options = parser.parse_args()
    games = GAMES.read_text().splitlines()[: options.first]
    decided = 0
    for number, record in enumerate(games, 1):
        said, seconds, megabytes = answered(record, options.budget)
        head = said.partition(b"\n")[0].decode()
        decided += head.startswith("won ")
        print(f"{number}: {head or 'no answer'}; {seconds:.1f} s, {megabytes:.0f} MB", flush=True)
    print(f"{decided} of {len(games)} decided")


if __name__ == "__main__":
    try:
        main()
    except KeyboardInterrupt:
        sys.exit(INTERRUPTED)
