"""How the filter moves: hexd's move by a strength or by the clock, a swap, an opening near even, a resignation. Whether a swap
may come and who wins are hexd's answers."""

import re
import time

import settings
from openings import Openings, guessed_share
from programs import HEXD
from timed import Timed

SWAP = b"swap-pieces"
# Values of look-report go so far.
CERTAIN = 1_000
# How likely a player wins of whom nothing is known.
EVEN = 0.5


class Mover(Timed):
    """A hexd that also swaps, and opens near even."""

    def __init__(self, words, now=time.monotonic):
        super().__init__(words, now)
        self.openings = Openings(HEXD)
        # Whether the last move came of a genmove of hexd's.
        self.is_by_search = False

    def moved(self, colour):
        """Moves for a player, and gives the move."""
        self.is_by_search, began = False, self.now()
        move = self.opened(colour) or self.swapped(colour) or self.searched_or_swapped(colour)
        self.clock.spend(colour, self.now() - began)
        return move

    def opened(self, colour):
        """On an empty board Black's opening near even, if White may swap it; else nothing."""
        if colour != b"B" or not self.words.swaps:
            return None
        found = re.fullmatch(rb"\(;FF\[4\]GM\[11\]SZ\[(\d+)\]\)", self.hexd.ask(b"printsgf"))
        cell = settings.TABLE["even"].get(found[1].decode()) if found else None
        if cell:
            self.hexd.ask(b"play b %s" % cell.encode())
        return cell and cell.encode()

    def swapped(self, colour):
        """A swap, if a certificate of openings/ says that the opening wins; else nothing."""
        if colour != b"W" or not self.words.swaps or not self.may_swap():
            return None
        return self.swap() if self.winner_of_opening() == "black" else None

    def winner_of_opening(self):
        """Who wins after Black's first stone, by a certificate of openings/; None if none says so."""
        size, cell = re.fullmatch(rb"\(;FF\[4\]GM\[11\]SZ\[(\d+)\];B\[(\w+)\]\)", self.hexd.ask(b"printsgf")).groups()
        return self.openings.winner(int(size), cell.decode())

    def searched_or_swapped(self, colour):
        """hexd's own move, or a swap in its place if White, who may, is likelier to lose by it and isn't proved to win."""
        cell = self.searched(colour)
        self.is_by_search = True
        if colour != b"W" or not self.words.swaps or self.hexd.ask(b"printsgf").count(b";") > 3:
            return cell
        if self.share_without_swap(cell) >= EVEN:
            return cell
        self.hexd.ask(b"undo")
        if self.may_swap() and self.winner_of_opening() != "white":
            self.is_by_search = False
            return self.swap()
        self.hexd.ask(b"play %s %s" % (colour, cell))
        return cell

    def share_without_swap(self, cell):
        """How likely White wins by his first move: by a guess of the opening, unless hexd looked at more nodes than that did."""
        share, judged = self.share(cell), re.match(rb"nodes (\d+)", self.hexd.tell(b"look-report") or b"")
        opening = re.match(rb"\(;FF\[4\]GM\[11\]SZ\[(\d+)\];B\[(\w+)\]", self.hexd.ask(b"printsgf"))
        guess = guessed_share(int(opening[1]), opening[2].decode()) if opening else None
        is_deeper = judged and int(judged[1]) > settings.GUESSED["options"]["look"]
        is_decided = self.is_lost() or self.planned().startswith(b"win")
        return share if guess is None or is_deeper or is_decided else 1 - guess

    def swap(self):
        self.hexd.ask(b"play w " + SWAP)
        return SWAP

    def may_swap(self):
        """Whether hexd takes a swap, which is taken back at once."""
        if self.hexd.tell(b"play w " + SWAP) is None:
            return False
        self.hexd.ask(b"undo")
        return True

    def is_lost(self):
        """Whether before hexd's last move each move lost."""
        return self.planned().startswith(b"lost yes")

    def planned(self):
        """What hexd planned for its last move; nothing if its search was ended for want of time."""
        return self.hexd.tell(b"mustplay") or b""

    def gives_up(self, move):
        """Whether this move of hexd's is resigned instead: if each move lost, or it is as unlikely to win as the words say."""
        if self.words.resign is None:
            return False
        return self.is_lost() or self.share(move) < self.words.resign / 100

    def share(self, cell):
        """How likely the last move's player wins, from 0 to 1: by proof, else by the look-ahead, else by the playouts."""
        if self.planned().startswith(b"win"):
            return 1.0
        if self.is_lost():
            return 0.0
        row = self.row_of(b"look-report", cell)
        if row:
            return {b"won": 1.0, b"lost": 0.0}.get(b"".join(row[3:4]), int(row[2]) / CERTAIN)
        row = self.row_of(b"search-report", cell)
        return int(row[2]) / max(1, int(row[1])) if row else EVEN

    def row_of(self, report, cell):
        """The words of a cell's line in a report; None if there is no report."""
        return next((row for row in self.rows_of(report) if row[0] == cell), None)

    def rows_of(self, report):
        """The words of each cell's line in a report; none if there is no report."""
        return list(map(bytes.split, (self.hexd.tell(report) or b"").splitlines()[1:]))
