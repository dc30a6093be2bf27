"""The list of puzzles that the page has, beside what hexd says of them."""

import unittest

from tests.support import ROOT

import hexd

LIST = ROOT / "board" / "page" / "puzzlelist.js"


def listed():
    """The rows of the page's list: name, size, and cells of Black, of White, and those that win."""
    rows = [line.split(" ") for line in LIST.read_text().split("`")[1].split("\n") if line]
    return [(name, int(size), *(cells.split(",") for cells in lists)) for name, size, *lists in rows]


def empty_cells(size, *stones):
    vertices = [f"{'abcdefghijk'[column]}{row + 1}" for row in range(size) for column in range(size)]
    return [vertex for vertex in vertices if not any(vertex in of for of in stones)]


class List(unittest.TestCase):
    def test_hexd_says_who_wins_after_each_cell(self):
        """Of the first puzzle of each grade. tools/check has all of them, with their certificates."""
        for grade in ("easy", "medium", "hard"):
            name, size, black, white, wins = next(row for row in listed() if row[0].startswith(grade))
            stones = "".join(f"A{colour}[{']['.join(of)}]" for colour, of in (("B", black), ("W", white)))
            found = [
                cell for cell in empty_cells(size, black, white)
                if hexd.solve(f"(;GM[11]SZ[{size}]{stones};B[{cell}])".encode(), 1000).winner == "black"
            ]  # fmt: skip
            self.assertEqual(wins, found, name)
