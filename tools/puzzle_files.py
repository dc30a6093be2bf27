"""The puzzles of puzzles/: the rows of puzzles.tsv, the files of certificates, and the list that the page has.

A puzzle is a position with Black to move. NAME.cert.xz has its certificates, one text behind another. One of Black's is
of the position after a cell that wins. One of White's is of the position after one cell that loses, and serves for each
cell that none of its lines names: there the stone in its head is another one, and the text is checked with that head.
"""

import re
from pathlib import Path
from typing import NamedTuple

from programs import ROOT

FOLDER = ROOT / "puzzles"
PAGE = ROOT / "board" / "page" / "puzzlelist.js"
TABLE, ENDING = "puzzles.tsv", ".cert.xz"
GRADES = "easy", "medium", "hard"
LETTERS = "abcdefghijk"
HEADING = "puzzle", "size", "black", "white", "wins", "positions", "game"
# The lines of a certificate before those of the derivation.
HEAD = 5
PAGE_HEAD = """'use strict';
// The puzzles of puzzles/puzzles.tsv, written by tools/puzzles: name, size, stones of Black, of White, cells that win.
const PUZZLE_ROWS = `
"""


class Puzzle(NamedTuple):
    """A row of the table. `positions` is the least budget with which `hexd solve` decides it; `game` is where it is from."""

    name: str
    size: int
    black: tuple
    white: tuple
    wins: tuple
    positions: int
    game: int

    @property
    def grade(self):
        return self.name.partition("-")[0]

    @property
    def empty(self):
        return [vertex for vertex in vertices(self.size) if vertex not in self.black + self.white]

    def row(self):
        return [",".join(value) if isinstance(value, tuple) else str(value) for value in self]

    @property
    def place(self):
        """The position, and the same one for its half turn."""
        turn = lambda stones: sorted(turned(vertex, self.size) for vertex in stones)  # noqa: E731
        return min((self.size, sorted(self.black), sorted(self.white)), (self.size, turn(self.black), turn(self.white)))


def vertices(size):
    return [LETTERS[cell % size] + str(cell // size + 1) for cell in range(size**2)]


def turned(vertex, size):
    """The cell opposite to this one."""
    return LETTERS[size - 1 - LETTERS.index(vertex[0])] + str(size + 1 - int(vertex[1:]))


def in_order(stones, size):
    """Stones in the order of their cells, as a certificate has them."""
    return tuple(vertex for vertex in vertices(size) if vertex in stones)


def puzzle_of(row):
    name, size, black, white, wins, positions, game = row.split("\t")
    stones = (tuple(value.split(",")) for value in (black, white, wins))
    return Puzzle(name, int(size), *stones, int(positions), int(game))


def read_table(folder):
    """The puzzles of a folder, in the order in which they were found; none if it has no table."""
    path = folder / TABLE
    return [puzzle_of(row) for row in path.read_text().splitlines()[1:]] if path.exists() else []


def add_row(folder, puzzle):
    path = folder / TABLE
    head = "" if path.exists() else "\t".join(HEADING) + "\n"
    with open(path, "a") as table:
        table.write(head + "\t".join(puzzle.row()) + "\n")


def page_list(puzzles):
    """The file of the page with these puzzles, by grade."""
    rows = sorted(puzzles, key=lambda puzzle: (GRADES.index(puzzle.grade), puzzle.name))
    return PAGE_HEAD + "".join(" ".join(puzzle.row()[:5]) + "\n" for puzzle in rows) + "`;\n"


def put_certificates(path, texts):
    """Writes a file of certificates. It gets its name once it is whole."""
    import lzma

    part = path.with_name(path.name + ".part")
    part.write_bytes(lzma.compress("".join(texts).encode(), preset=9 | lzma.PRESET_EXTREME))
    part.replace(path)


def certificates_in(path):
    """The certificates of a file, each with its last line feed."""
    import lzma

    return re.findall(r"hexcert .*?(?=hexcert |\Z)", lzma.decompress(path.read_bytes()).decode(), re.S)


def head_of(puzzle, cell, player):
    """The head of a certificate of the position after Black's stone on a cell, without the line with the version."""
    black = in_order((*puzzle.black, cell), puzzle.size)
    stones = (" ".join(["black", *black]), " ".join(["white", *in_order(puzzle.white, puzzle.size)]))
    return [f"size {puzzle.size}", f"player {player}", *stones]


def names_cell(text, cell):
    """Whether a line behind the head names a cell."""
    return re.search(rf" {cell}\b", text.split("\n", HEAD)[HEAD]) is not None


def with_cell(text, puzzle, cell):
    """A certificate of White's with another stone of Black's in its head."""
    version, *_, lines = text.split("\n", HEAD)
    return "\n".join([version, *head_of(puzzle, cell, "white"), lines])
