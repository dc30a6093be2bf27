#!/usr/bin/env python3
"""What hexd's look-ahead says of Black's first stones: tools/first_stones.py [--look N] [--out FILE] [SIZE..]

For each size, 8 to 11 if none is said, of which not all openings are proved, and each cell it asks a hexd of its own for White's move
after Black's first stone, and keeps what that is worth to Black, in thousandths. The board turned by half a circle is the same
board, so of two opposite cells the first stands for both. FILE, board/guessed.json if it isn't said, has them, with the options
and the commit of the released program (release/RECORD), which alone is asked. It goes on where it was ended: what is there by
the same program and options isn't asked again. It is a guess, of which nothing is proved.
"""

import argparse
import hashlib
import json
import subprocess
import sys
from pathlib import Path

from programs import ROOT, Hexd

TABLE = ROOT / "board" / "guessed.json"
SIZES = [8, 9, 10, 11]
CERTAIN = 1_000
# How a plan begins by which White is known to win, or to lose; and the end of a line of look-report that connections decide.
PLANNED = {"win": CERTAIN, "lost yes": 0}
KNOWN = {"won": CERTAIN, "lost": 0}


class Fault(Exception):
    """Why there is no table, in words."""


def released_commit():
    """The commit of the released program; Fault if another one would be asked."""
    where = subprocess.run([ROOT / "bin" / "start", "--where", "hexd"], stdout=subprocess.PIPE, text=True, check=True)
    own = hashlib.sha256(Path(where.stdout.strip()).read_bytes()).hexdigest()
    lines = (ROOT / "release" / "RECORD").read_text().splitlines()
    for name, _, program, commit, *_ in map(str.split, lines[1:]):
        if (name, program) == ("hexd", own):
            return commit
    raise Fault("the program isn't the released one")


def first_half(size):
    """The cells of a board, of two opposite ones the first."""
    cells = [f"{chr(ord('a') + column)}{row + 1}" for row in range(size) for column in range(size)]
    return cells[: (len(cells) + 1) // 2]


def told(session, line):
    """The text that answers a line."""
    session.send(f"{line}\n".encode())
    answer = session.answer().decode().removesuffix("\n\n")
    if not answer.startswith("= "):
        raise Fault(f"hexd answers {line} by {answer!r}")
    return answer.removeprefix("= ")


def worth_to_black(size, stone, options):
    """What White's best move leaves to Black, in thousandths, by a look-ahead after Black's first stone."""
    session = Hexd([f"--size={size}", *(f"--{name}={value}" for name, value in options.items())])
    told(session, f"play b {stone}")
    cell = told(session, "genmove w")
    plan = told(session, "mustplay")
    report = "" if plan.startswith(tuple(PLANNED)) else told(session, "look-report")
    session.close()
    rows = [line.split() for line in report.splitlines()[1:]]
    decided = [worth for start, worth in PLANNED.items() if plan.startswith(start)]
    return CERTAIN - (decided or [KNOWN.get(row[-1], int(row[2])) for row in rows if row[0] == cell])[0]


def written(table):
    """The text of a table: a line for each size."""
    sizes = [f'    "{size}": {json.dumps(table["black"][size])}' for size in sorted(table["black"], key=int)]
    head = "".join(f"  {json.dumps(name)}: {json.dumps(table[name])},\n" for name in ("program", "options"))
    return "{\n" + head + '  "black": {\n' + ",\n".join(sizes) + "\n  }\n}\n"


def begun(file, head):
    """The table of a file, if it was made by the same program and options; else an empty one."""
    there = json.loads(file.read_text()) if file.exists() else {}
    return there if {name: there.get(name) for name in head} == head else {**head, "black": {}}


def fill(table, size, file):
    """Asks of the first stones of a size that a table doesn't have, and keeps each answer."""
    found = table["black"].setdefault(str(size), {})
    for stone in first_half(size):
        if stone not in found:
            found[stone] = worth_to_black(size, stone, table["options"])
            file.write_text(written(table))
            print(size, stone, found[stone], flush=True)


def main():
    parser = argparse.ArgumentParser(description=__doc__, formatter_class=argparse.RawDescriptionHelpFormatter)
    parser.add_argument("--look", type=int, default=1_000, metavar="N")
    parser.add_argument("--out", type=Path, default=TABLE, metavar="FILE")
    parser.add_argument("sizes", type=int, nargs="*", default=SIZES, metavar="SIZE")
    options = parser.parse_args()
    how = {"look": options.look, "playouts": 1_000, "weight": 0, "seed": 0}
    try:
        table = begun(options.out, {"program": released_commit(), "options": how})
        for size in options.sizes:
            fill(table, size, options.out)
    except Fault as fault:
        print(f"tools/first_stones.py: {fault}", file=sys.stderr)
        return 1
    return 0


if __name__ == "__main__":
    sys.exit(main())
