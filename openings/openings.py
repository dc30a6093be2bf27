"""Openings of Hex: their cells, their names, which of them a size has to have, and the files of certificates.

An opening is Black's first stone on an empty board; White moves next. Its name is the size, a hyphen and the vertex,
as `6-a3`, and its certificate is the file of this name with `.cert.xz` after it. A half turn of the board takes an
opening to another one with the same winner, so of such two the one with the lesser cell number stands for both.
"""

import functools
import os
import re
import socket
from pathlib import Path
from typing import NamedTuple

FOLDER = Path(__file__).resolve().parent
LIST = FOLDER / "openings.tsv"
MEASURED = FOLDER / "measured.tsv"
POSITIONS = FOLDER / "positions.tsv"
LETTERS = "abcdefghijk"
ENDING = ".cert.xz"
# The most bytes of a certificate that hexd takes, so that a small file can't fill the memory.
MOST_BYTES = 67_108_864
# Who wins claims this kind: Black with White to move, or White with himself to move.
KINDS = {"black": "full", "white": "semi"}


class Opening(NamedTuple):
    size: int
    cell: int

    def __str__(self):
        return f"{self.size}-{vertex(self.size, self.cell)}"

    def turned(self):
        """The same opening, seen from the other side of the board."""
        return Opening(self.size, self.size**2 - 1 - self.cell)

    def has_file(self):
        """Whether the file of a certificate is named for it, and not for its half turn."""
        return self <= self.turned()


class Listed(NamedTuple):
    """What the list says of an opening: who wins, by which kind of claim, White's answer, the certificate's lines."""

    winner: str
    claim: str
    answer: str
    lines: int


def vertex(size, cell):
    return LETTERS[cell % size] + str(cell // size + 1)


def opening_named(name):
    """The opening of a name, or None."""
    found = re.fullmatch("([1-9]|10|11)-([a-k])([1-9]|10|11)", name)
    if not found:
        return None
    size, column, row = int(found[1]), LETTERS.index(found[2]), int(found[3]) - 1
    return Opening(size, row * size + column) if column < size and row < size else None


def openings_of(size, whole=False):
    """The openings of a size up to the half turn, or all, those nearest to the middle of the board first."""
    middle = (size - 1) / 2

    def distance(cell):
        x, y = cell % size - middle, cell // size - middle
        return x * x + y * y + x * y

    return [Opening(size, cell) for cell in sorted(range(size**2 if whole else (size**2 + 1) // 2), key=distance)]


def head_of(opening, winner):
    """The first lines of the opening's certificate for this winner, after the one with the version."""
    return [f"size {opening.size}", f"player {winner}", f"black {vertex(*opening)}", "white"]


class Measured(NamedTuple):
    """What `hexd solve` took for an opening: who wins, lines, processor seconds, and the most memory in MB."""

    winner: str
    lines: int
    seconds: float
    megabytes: int


@functools.cache
def measured():
    """The measured openings in the order of their cells; of several rows of one the last counts."""
    rows = [line.split("\t") for line in MEASURED.read_text().splitlines()] if MEASURED.exists() else []
    found = {opening_named(name): Measured(winner, int(a), float(b), int(c)) for name, winner, a, b, c in rows}
    return dict(sorted(found.items()))


def positions(path=POSITIONS):
    """How many positions `hexd solve` enters for openings, if it is known."""
    rows = [line.split("\t") for line in path.read_text().splitlines()] if path.exists() else []
    return {opening_named(name): int(count) for name, count in rows}


@functools.cache
def listed():
    """What openings.tsv says of each opening."""
    rows = [line.split("\t") for line in LIST.read_text().splitlines()[1:]]
    return {opening_named(name): Listed(*words, int(lines)) for name, *words, lines in rows}


def opening_of(path):
    """The opening that a file is named for, or None."""
    return opening_named(path.name.removesuffix(".xz").removesuffix(".cert"))


def can_unpack():
    """Whether this Python has lzma, which some lack."""
    try:
        import lzma  # noqa: F401
    except ImportError:
        return False
    return True


def text_of(path):
    """The bytes of a certificate, unpacked if the file is compressed."""
    if path.suffix != ".xz":
        return path.read_bytes()
    import lzma

    with lzma.open(path) as file:
        text = file.read(MOST_BYTES + 1)
    if len(text) > MOST_BYTES:
        raise ValueError(f"it has more than {MOST_BYTES:,} bytes")
    return text


def put_whole(path, data):
    """A file that is there is whole: it gets its name at the end. Others may write it too, on other machines."""
    part = path.with_name(f"{path.name}.{socket.gethostname()}.{os.getpid()}.part")
    try:
        part.write_bytes(data)
        part.replace(path)
    finally:
        part.unlink(missing_ok=True)
