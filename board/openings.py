"""Openings whose winner is proved: the certificates of the folder openings/, each read and checked when it is asked for.

The file openings/6-a3.cert.xz has a certificate of the board of size 6 with one stone of Black on a3, White to move. Where
there is no such file, where Python has no lzma, or where a second process doesn't accept the certificate, nothing is known.
The board turned by half a circle is the same board, with first and second edges exchanged; so a certificate also serves for
the opening on the opposite cell: it is turned, and the second process is given the turned one.
"""

import collections
import re
import threading
from pathlib import Path

import hexd
import limits
import settings

try:
    import lzma
except ImportError:
    lzma = None

FOLDER = Path(__file__).resolve().parent.parent / "openings"
# `hexd check` takes no more.
MOST_BYTES = 67_108_864
# Guesses are in thousandths (board/guessed.json).
PER_MILLE = 1_000
# What the certificate's player is, and what it claims, where he wins with White to move.
CLAIMS = {"white": "yes semi", "black": "yes full"}


def turned_cell(vertex, size):
    """The cell opposite to this one."""
    return f"{chr(ord('a') + size - 1 - (ord(vertex[0]) - ord('a')))}{size + 1 - int(vertex[1:])}"


def turned(certificate, size):
    """The certificate of the board that is turned by half a circle. Lists of cells rise, so they are turned around too."""
    edges = {"edge1": "edge2", "edge2": "edge1"}
    lines = []
    for line in certificate.split("\n"):
        name, *words = line.split(" ")
        words = [turned_cell(word, size) if re.fullmatch("[a-k][0-9]+", word) else edges.get(word, word) for word in words]
        lines.append(" ".join([name, *(reversed(words) if name in ("black", "white", "put") else words)]))
    return "\n".join(lines)


def guessed_share(size, vertex):
    """What is guessed of Black's share after his first stone on a cell, from 0 to 1; None where nothing is."""
    of = settings.GUESSED["black"].get(str(size), {})
    found = of.get(vertex, of.get(turned_cell(vertex, size)))
    return found and found / PER_MILLE


def player_of(certificate):
    """Whose win a certificate claims: `black` or `white`."""
    return certificate.split("\n", 3)[2].removeprefix("player ")


class Openings:
    """The proved winners of openings, and their certificates. Each winner is found once."""

    def __init__(self, program, folder=FOLDER):
        self.program, self.folder = program, Path(folder)
        self.found = {}
        # One lock for each opening: who asks for one doesn't wait for the others of a map.
        self.turns = collections.defaultdict(threading.Lock)

    def winner(self, size, vertex):
        """`black` or `white` where it is proved who wins after Black's first stone on this cell, and else None."""
        with self.turns[size, vertex]:
            if (size, vertex) not in self.found:
                self.found[size, vertex] = self._winner(size, vertex)
            return self.found[size, vertex]

    def certificate(self, size, vertex):
        """The certificate by which it is proved who wins after Black's first stone on this cell; None where nothing is."""
        return self._accepted(size, vertex) if self.winner(size, vertex) else None

    def winners(self, size):
        """Who is proved to win, by the opening's vertex, for those of a size that are known."""
        vertices = [f"{chr(ord('a') + column)}{row + 1}" for row in range(size) for column in range(size)]
        found = {vertex: self.winner(size, vertex) for vertex in vertices if self.is_kept(size, vertex)}
        return {vertex: winner for vertex, winner in found.items() if winner}

    def is_kept(self, size, vertex):
        """Whether there is a file for an opening or its opposite one."""
        return any((self.folder / f"{size}-{cell}.cert.xz").exists() for cell in (vertex, turned_cell(vertex, size)))

    def _winner(self, size, vertex):
        text = self._accepted(size, vertex)
        return text and player_of(text)

    def _accepted(self, size, vertex):
        """An opening's certificate that a second process accepts: its own, or the turned one of the opposite cell; else None."""
        own = self._certificate(size, vertex)
        if self._is_accepted(own, size, vertex):
            return own
        opposite = turned(self._certificate(size, turned_cell(vertex, size)), size)
        return opposite if self._is_accepted(opposite, size, vertex) else None

    def _is_accepted(self, certificate, size, vertex):
        """Whether a certificate is one of this opening, and a second process says that it is right."""
        head = certificate.split("\n", 5)[:5]
        if len(head) < 5 or head[1] != f"size {size}" or head[3:] != [f"black {vertex}", "white"]:
            return False
        try:
            return limits.check(certificate.encode(), self.program) == CLAIMS.get(player_of(certificate))
        except hexd.EngineEnded:
            return False

    def _certificate(self, size, vertex):
        if lzma is None:
            return ""
        try:
            packed = (self.folder / f"{size}-{vertex}.cert.xz").read_bytes()
            return lzma.LZMADecompressor().decompress(packed, MOST_BYTES).decode()
        except (OSError, lzma.LZMAError, UnicodeDecodeError):
            return ""
