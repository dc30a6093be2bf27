#!/usr/bin/env python3
"""Writes what the certificates here say at a glance: a list, a board of each size, and README.md's tables, which have also
what `hexd solve` took for openings, by measured.tsv, which it puts in order.

    openings/draw.py            writes them anew
    openings/draw.py --check    says nothing if they are as they would be written, and else ends with 1

The list is openings.tsv: each opening, who wins, by which kind of claim, the cell by which White answers and wins (`-`
if Black wins), and the number of the certificate's lines.

A board is pictures/SIZE.svg. Each cell is an opening, and has the colour of the player who wins after it, black or
white; a cell for which there is no certificate is grey and has a question mark. The pictures have a ground of their
own, so that they can be seen on light and on dark pages.
"""

import math
import sys

from openings import ENDING, FOLDER, KINDS, LIST, MEASURED, Listed, Opening, measured, opening_named, text_of, vertex
from solved import tables

sys.path.insert(0, str(FOLDER.parent / "examples"))
from winning_move import winning_move

README = FOLDER / "README.md"
TABLES = "## Each opening\n"

# The circle around a cell has this radius; a row is 3/2 of it below the one before, and half a column to the right.
RADIUS = 24
COLUMN, ROW = RADIUS * math.sqrt(3), RADIUS * 1.5
MARGIN = 30
LEGEND = 42
GROUND, LINE, GREY = "#b4bcc6", "#5b6570", "#949ca6"
FILLS = {"black": ("#14181d", "#ffffff"), "white": ("#ffffff", "#14181d"), None: (GREY, "#14181d")}
WORDS = {"black": "Black wins", "white": "White wins", None: "no certificate"}


def kept():
    """What the certificates say, in the order of their names."""
    found = {}
    for path in FOLDER.glob("*" + ENDING):
        data = text_of(path)
        winner = data.split(b"\n")[2].split()[1].decode()
        answer = winning_move(data.decode()) or "-"
        found[opening_named(path.name.removesuffix(ENDING))] = Listed(winner, KINDS[winner], answer, data.count(b"\n"))
    return dict(sorted(found.items()))


def list_text(known):
    rows = [(str(opening), *map(str, entry)) for opening, entry in known.items()]
    return "".join("\t".join(row) + "\n" for row in [("opening", *Listed._fields), *rows])


def measured_text():
    rows = [(opening, winner, lines, f"{s:.2f}", megabytes) for opening, (winner, lines, s, megabytes) in measured().items()]
    return "".join("\t".join(map(str, row)) + "\n" for row in rows)


def points(corners):
    return " ".join(f"{x:.1f},{y:.1f}" for x, y in corners)


def middle(column, row):
    """The middle of a cell, counted from 0; also of places beside the board."""
    return MARGIN + COLUMN * (column + row / 2 + 0.5), MARGIN + RADIUS + ROW * row


def corner(x, y, turn, radius=RADIUS):
    """Corner `turn` of a cell whose middle is there: 0 is the top one, and they go round to the right."""
    angle = math.radians(60 * turn - 90)
    return x + radius * math.cos(angle), y + radius * math.sin(angle)


def cell(x, y, winner, label, title):
    fill, ink = FILLS[winner]
    shape = points(corner(x, y, turn) for turn in range(6))
    return (
        f'<polygon points="{shape}" fill="{fill}" stroke="{LINE}" stroke-width="1.5"><title>{title}</title></polygon>'
        f'<text x="{x:.1f}" y="{y + 5:.1f}" fill="{ink}">{label}</text>'
    )


def edge(colour, cells, turns):
    """A player's edge: a broad line along these corners of the cells on it, whose inner half the cells hide."""
    along = points(corner(*middle(*at), turn) for at in cells for turn in turns)
    return "".join(
        f'<polyline points="{along}" fill="none" stroke="{paint}" stroke-width="{width}" stroke-linejoin="round"/>'
        for paint, width in ((LINE, 18), (FILLS[colour][0], 15))
    )


def cells_of(size, known):
    for number in range(size**2):
        opening = Opening(size, number)
        source = next((one for one in (opening, opening.turned()) if one in known), None)
        winner = known[source].winner if source else None
        name = vertex(size, number)
        turned = f" (the half turn of {source})" if source not in (opening, None) else ""
        label = name if winner else name + "?"
        yield cell(*middle(number % size, number // size), winner, label, f"{name}: {WORDS[winner]}{turned}")


def legend(width, top, winners):
    """What the colours mean, below the board."""
    for place, winner in enumerate(winners):
        x, y = width / 2 + (place - (len(winners) - 1) / 2) * 150 - 50, top + RADIUS * 0.5
        fill, _ = FILLS[winner]
        shape = points(corner(x, y, turn, 10) for turn in range(6))
        yield f'<polygon points="{shape}" fill="{fill}" stroke="{LINE}" stroke-width="1.5"/>'
        yield f'<text x="{x + 18:.1f}" y="{y + 5:.1f}" fill="#14181d" text-anchor="start">{WORDS[winner]}</text>'


def board(size, known):
    """The picture of a size."""
    last = size - 1
    whole = sum(opening.size == size for opening in known) == (size**2 + 1) // 2
    winners = ["black", "white"] if whole else ["black", "white", None]
    width = max(2 * MARGIN + COLUMN * (1.5 * size - 0.5), len(winners) * 150 + 20)
    bottom = middle(0, last)[1] + RADIUS + MARGIN
    says = f"Openings of size {size}: a cell has the colour of who wins after Black's first stone there"
    sides = [
        edge("black", [(column, 0) for column in range(size)], (5, 0, 1)),
        edge("black", [(column, last) for column in range(size)], (4, 3, 2)),
        edge("white", [(0, row) for row in range(size)], (5, 4)),
        edge("white", [(last, row) for row in range(size)], (1, 2)),
    ]
    shift = (width - (2 * MARGIN + COLUMN * (1.5 * size - 0.5))) / 2
    parts = [
        f'<svg xmlns="http://www.w3.org/2000/svg" viewBox="0 0 {width:.0f} {bottom + LEGEND:.0f}" width="{width:.0f}"'
        ' font-family="sans-serif" font-size="14" text-anchor="middle" role="img">',
        f"<title>{says}</title>",
        f'<rect width="100%" height="100%" rx="12" fill="{GROUND}"/>',
        f'<g transform="translate({shift:.1f} 0)">',
        *sides,
        *cells_of(size, known),
        "</g>",
        *legend(width, bottom, winners),
        "</svg>",
    ]
    return "\n".join(parts) + "\n"


def main():
    known = kept()
    front = README.read_text().split(TABLES)[0]
    texts = {LIST: list_text(known), MEASURED: measured_text(), README: f"{front}{TABLES}\n{tables(known, measured())}"}
    for size in sorted({opening.size for opening in known}):
        texts[FOLDER / "pictures" / f"{size}.svg"] = board(size, known)
    if sys.argv[1:] == ["--check"]:
        others = [path for path, text in texts.items() if not path.is_file() or path.read_text() != text]
        for path in others:
            print(f"openings/draw.py: {path.relative_to(FOLDER.parent)} is not as it would be written")
        return 1 if others else 0
    for path, text in texts.items():
        path.parent.mkdir(exist_ok=True)
        path.write_text(text)
    return 0


if __name__ == "__main__":
    sys.exit(main())
