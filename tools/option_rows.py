"""The rows of tools/options.txt: options and modes of the programs."""

from typing import NamedTuple

from programs import ROOT

TEXT = ROOT / "tools" / "options.txt"
SIDES = "ab"


class Row(NamedTuple):
    """An option, a mode, or a file that stands alone: whose, how it is spelled, what its value is, and what it says."""

    programs: list
    name: str
    value: str
    range: str
    default: str
    sentence: str
    more: str
    # Of an option of both sides of a match: whether it is that of the second one.
    is_same: bool = False

    def is_of_sides(self):
        """Whether it stands for an option of each side of a match."""
        return self.name.endswith("-S")

    def is_option(self):
        return self.name.startswith("--")

    def is_mode(self):
        return not self.is_option() and not self.value

    def choices(self):
        """The words of its range, if it is one of words."""
        return self.range.split(" or ") if self.value == "WORD" else []


def of_sides(row):
    """The row, or that of each side."""
    if not row.is_of_sides():
        return [row]
    return [
        row._replace(name=row.name[:-1] + side, sentence=row.sentence.replace("side S", f"side {side}"), is_same=side != "a")
        for side in SIDES
    ]


def written_rows(program):
    """The rows of a program, as they are written."""
    found = []
    for line in TEXT.read_text(encoding="utf-8").splitlines():
        if line.startswith("    "):
            found[-1] = found[-1]._replace(more=line.strip())
        elif line and not line.startswith("#"):
            programs, word, *rest = [cell.strip() for cell in line.split("|")]
            name, _, value = word.partition(" ")
            found.append(Row(programs.split(", "), name, value, *rest, more=""))
    return [row for row in found if program in row.programs]


def rows_of(program):
    """The rows of a program, with one for each side in place of one for both."""
    return [one for row in written_rows(program) for one in of_sides(row)]


def plain(text):
    """A sentence without the signs of code."""
    return text.replace("`", "")
