"""Positions that are solved one by one on many machines: their names, and their files in a folder that all see.

A position is an opening and what was played after it, by turns. Its name is that of the opening, with a hyphen and a
vertex for each further stone: in `7-e2-c5` White answers Black's e2. If the same stones can be played in several
orders, its files are named by that in which each player's further cells rise. In the folder it has up to three:

- NAME.cert.xz is its certificate, by which one of the players wins it.
- NAME.carrier has who wins and the cells on which the certificate stands. Of the positions after one stone more of
  its player's opponent, those in which that stone lies elsewhere need no certificate.
- NAME.split says that it was too much for one job: the positions after one stone more are jobs in its place. It has
  the cells that are to be tried first.

No file is trusted: openings/gather checks the certificates, and writes the carriers anew. The others only say what is
to be done.
"""

import re
import sys
from typing import NamedTuple

from openings import ENDING, FOLDER, LETTERS, openings_of, put_whole, text_of, vertex

sys.path += [str(FOLDER.parent / "tools"), str(FOLDER.parent / "board")]
import second_checker
from hexd import check

CARRIER, SPLIT, REFUSED = ".carrier", ".split", ".refused"
PLAYERS = "black", "white"
VERTEX = "([a-k])([1-9]|10|11)"


class Refused(Exception):
    """Why a certificate shows nothing of the position that it is said to be of."""


class Position(NamedTuple):
    """The cells that were played, Black's and White's by turns."""

    size: int
    cells: tuple

    def __str__(self):
        return "-".join([str(self.size), *(vertex(self.size, cell) for cell in self.cells)])

    def after(self, cell):
        return Position(self.size, (*self.cells, cell))

    def before(self):
        """The position with one stone less."""
        return Position(self.size, self.cells[:-1])

    def in_order(self):
        """The position by which its files are named: that with the same stones whose cells after the first rise."""
        cells = list(self.cells)
        cells[1::2], cells[2::2] = sorted(cells[1::2]), sorted(cells[2::2])
        return Position(self.size, tuple(cells))

    def line(self):
        """The positions on the way here from the opening, this one as the last."""
        return [Position(self.size, self.cells[:count]) for count in range(1, len(self.cells) + 1)]

    def to_move(self):
        return PLAYERS[len(self.cells) % 2]

    def waiting(self):
        """The other player."""
        return PLAYERS[1 - len(self.cells) % 2]

    def empty(self):
        """The cells without a stone, those nearest to the middle first."""
        return [opening.cell for opening in openings_of(self.size, True) if opening.cell not in self.cells]

    def stones(self, player):
        return set(self.cells[PLAYERS.index(player) :: 2])

    def record(self):
        """The moves as a game in SGF."""
        moves = (f";{'BW'[at % 2]}[{vertex(self.size, cell)}]" for at, cell in enumerate(self.cells))
        return f"(;GM[11]SZ[{self.size}]{''.join(moves)})"

    def head(self, winner):
        """The lines of a certificate between the one with the version and the first line of the derivation."""
        stones = (words_of(self.size, player, self.stones(player)) for player in PLAYERS)
        return [f"size {self.size}", f"player {winner}", *stones]

    def claim(self, winner):
        """The kind that a certificate of this winner claims."""
        return "semi" if winner == self.to_move() else "full"


class Proof(NamedTuple):
    """Who wins a position, the cells on which that is claimed, and how many lines it has: by a certificate of its own,
    by proofs of positions after one stone more that answer each move, or by a move and the proof of what is after it.
    """

    position: Position
    winner: str
    carrier: frozenset
    lines: int
    parts: tuple = ()
    move: int | None = None


def words_of(size, name, cells):
    """A line of this name and the vertices of these cells, in the order that certificates have them in."""
    return " ".join([name, *(vertex(size, cell) for cell in sorted(cells))])


def cell_named(size, word):
    """The cell of a vertex, or None."""
    found = re.fullmatch(VERTEX, word)
    column, row = (LETTERS.index(found[1]), int(found[2]) - 1) if found else (size, size)
    return row * size + column if column < size and row < size else None


def position_named(name):
    """The position of a name, or None."""
    size, *words = name.split("-")
    if not re.fullmatch("[1-9]|10|11", size) or not words:
        return None
    cells = tuple(cell_named(int(size), word) for word in words)
    return None if None in cells or len(set(cells)) < len(cells) else Position(int(size), cells)


def file_of(folder, position, ending=ENDING):
    return folder / f"{position.in_order()}{ending}"


def certified(position, text):
    """What a certificate proves, if its board is the position's and both checkers accept it."""
    head = text.decode("latin-1").split("\n", 5)[1:5]
    winner = next((winner for winner in PLAYERS if head == position.head(winner)), None)
    if winner is None:
        raise Refused(f"has another head than this position: {' / '.join(head)[:100]}")
    want = f"yes {position.claim(winner)}"
    if (said := check(text)) != want:
        raise Refused(f"hexd check says {said!r} in place of {want!r}")
    size, player, stones, lines = second_checker.read(text)
    checker = second_checker.Checker(size, player, stones)
    if any(checker.reason_against(*line) for line in lines):
        raise Refused("the second checker refuses it")
    _, _, (claimed,) = lines[-1]
    places = checker.given[claimed].carrier
    return Proof(position, winner, frozenset(second_checker.members(places)), text.count(10))


def certified_file(folder, position):
    """What the file of a position proves. One that can't be read is refused, too."""
    try:
        text = text_of(file_of(folder, position))
    except Exception as error:  # It is missing, or not compressed, or broken.
        raise Refused(f"can't be read: {error}") from None
    return certified(position, text)


def words_in(path):
    """The words of a small file; None if there is none."""
    try:
        return path.read_text(encoding="ascii", errors="replace").split()
    except OSError:
        return None


def keep_carrier(folder, proof):
    """Writes the carrier, if its file doesn't say so already."""
    path = file_of(folder, proof.position, CARRIER)
    line = words_of(proof.position.size, proof.winner, proof.carrier)
    if words_in(path) != line.split():
        put_whole(path, f"{line}\n".encode())


def told_carriers(folder, position):
    """Of each position after one stone more that has a certificate: who wins, and the carrier, as its file tells."""
    for cell in position.empty():
        child = position.after(cell)
        words = words_in(file_of(folder, child, CARRIER))
        if words and file_of(folder, child).exists():
            yield child, words[0], {cell_named(position.size, word) for word in words[1:]}


def answered_by(folder, position):
    """A position whose certificate makes one of this position needless; None if there is none."""
    for place in position.line():
        if file_of(folder, place).exists():
            return place
        for other, winner, carrier in told_carriers(folder, place.before()) if place.before().cells else ():
            if winner == place.waiting() or winner == place.to_move() and place.cells[-1] not in carrier:
                return other
    return None


def split_of(folder, position):
    """The cells that are to be tried first if the position is split; None if it isn't."""
    words = words_in(file_of(folder, position, SPLIT))
    if words is None:
        return None
    empty = position.empty()
    return [cell for word in words if (cell := cell_named(position.size, word)) in empty]


def split(folder, position, cells):
    """Splits a position by these cells, if the player to move is thought to win by one of them: then each answer to it
    is a job. Without cells each move is one."""
    for cell in cells:
        put_whole(file_of(folder, position.after(cell), SPLIT), b"\n")
    line = " ".join(vertex(position.size, cell) for cell in cells)
    put_whole(file_of(folder, position, SPLIT), f"{line}\n".encode())
