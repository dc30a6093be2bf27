"""The table of strengths, settings.json."""

import csv
import unittest

import openings
import settings
from openings import guessed_share
from tests.support import ROOT

SIZES = range(1, settings.LARGEST + 1)
# Of these sizes each opening is solved.
SOLVED = "3456"
# Of these nothing is proved.
GUESSED = ["8", "9", "10", "11"]


def rows_of(name):
    with open(ROOT / "openings" / name, newline="") as file:
        return [row for row in csv.reader(file, delimiter="\t") if row]


class Settings(unittest.TestCase):
    def test_strengths(self):
        """Each strength has options that hexd takes, on each size, and a stronger one has no less of anything."""
        strengths = settings.TABLE["strengths"]
        self.assertEqual(["quick", "normal", "strong"], list(strengths))
        self.assertIn(settings.TABLE["default"], strengths)
        for size in SIZES:
            options = [settings.strength_options(name, size) for name in strengths]
            for given in options:
                text = " ".join(f"{name}={value}" for name, value in given.items())
                self.assertEqual(given, settings.asked_of(text))
            for less, more in zip(options, options[1:]):
                self.assertTrue(all(more[name] >= value for name, value in less.items()), (less, more))

    def test_even_openings(self):
        """Of a solved size the even opening is the one that is decided last; of others it is a cell of the board."""
        even = settings.TABLE["even"]
        self.assertEqual([str(size) for size in SIZES if size > 2], list(even))
        lines = {name: int(lines) for name, _, lines, *_ in rows_of("measured.tsv")}
        for size in SOLVED:
            found = [(int(positions), lines[name], name) for name, positions in rows_of("positions.tsv") if name[0] == size]
            last = max(positions for positions, _, _ in found)
            most = max(count for positions, count, _ in found if positions == last)
            self.assertIn((last, most, f"{size}-{even[size]}"), found)
        for size, cell in even.items():
            self.assertTrue(ord(cell[0]) - ord("a") < int(size) and 1 <= int(cell[1:]) <= int(size), cell)

    def test_guesses(self):
        """Each first stone of a half of each board on which nothing is proved, in thousandths; the other half is its like."""
        guessed = settings.GUESSED
        self.assertEqual(GUESSED, list(guessed["black"]))
        for size, found in guessed["black"].items():
            names = [f"{chr(ord('a') + column)}{row + 1}" for row in range(int(size)) for column in range(int(size))]
            self.assertEqual(names[: (len(names) + 1) // 2], list(found))
            self.assertTrue(all(0 < worth < 1_000 for worth in found.values()), size)
            self.assertEqual(found["b1"] / 1_000, guessed_share(int(size), openings.turned_cell("b1", int(size))))
        self.assertIsNone(guessed_share(7, "a1"))
        given = {name: value for name, value in guessed["options"].items() if name != "seed"}
        self.assertEqual(given, settings.asked_of(" ".join(f"{name}={value}" for name, value in given.items())))
        self.assertRegex(guessed["program"], "^[0-9a-f]{12}$")
