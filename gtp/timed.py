"""hexd's move in a time. If it isn't sure what a search takes, a trial takes a part of the time first, and if the flag would
fall before the end of another search, the trial's move is played."""

import re
import time

from clock import SPARE, Allowed, Clock
from engine import TooLate
from pace import LONG_ENOUGH, Pace
from ponder import Pondering
from troubles import say

# What the clock does to a game is told once.
BY_A_CLOCK = "hexd-gtp: by the clock: moves depend on the time that searches took, so this game can't be repeated"


class Timed(Pondering):
    """A hexd that moves by a clock if there is one."""

    def __init__(self, words, now=time.monotonic):
        super().__init__(words, now)
        self.clock, self.is_told = Clock(), False
        # The pace in this game, with the size that it is of; and what was measured of each size on an empty board.
        self.pace, self.paced_size, self.measured = None, None, {}

    def begin_game(self):
        """Another game begins, with all of its time, and at the pace of an empty board."""
        self.clock.begin()
        self.pace = None
        self.measure()

    def change(self, words):
        super().change(words)
        # hexd may be as fast no more.
        self.pace, self.measured = None, {}
        self.measure()

    def measure(self):
        """Learns by small searches beside the game how fast hexd is on a board of this size, if there is a clock."""
        if not (self.clock.is_on and self.words.strength):
            return
        self.learn_size()
        if self.size not in self.measured:
            self.measured[self.size] = self.measured_pace()
        self.find_pace()

    def measured_pace(self):
        """What searches of an empty board say of the pace, each larger than the one before."""
        pace, says_more = Pace(self.size), True
        while says_more:
            factor, _ = pace.plan(LONG_ENOUGH, False)
            says_more = pace.is_worth(factor) and self.searched_empty(pace, factor)
        return pace

    def find_pace(self):
        """Has a pace of this size: the one of this game, or what was measured, or one that knows nothing."""
        if self.pace is None or self.paced_size != self.size:
            measured = self.measured.get(self.size)
            self.pace, self.paced_size = measured.copy() if measured else Pace(self.size), self.size

    def searched_empty(self, pace, factor):
        """Searches an empty board a little; whether that says something of the pace."""
        hexd = self.started(pace.options(factor))
        try:
            hexd.ask(b"boardsize %d" % self.size)
            return self.noted(hexd, b"B", pace, factor)[1]
        finally:
            hexd.close()

    def noted(self, hexd, colour, pace, factor, limit=None):
        """hexd's move by a search of this factor, and whether the search went to its end: then its time is noted."""
        began = self.now()
        try:
            cell = hexd.ask(b"genmove %s" % colour, limit)
        except TooLate:
            pace.note(factor, self.now() - began, True)
            raise
        took, is_whole = self.now() - began, self.is_whole(hexd, pace.options(factor))
        pace.note(factor, took, is_whole)
        return cell, is_whole

    def is_whole(self, hexd, options):
        """Whether hexd's last search was as large as it was asked for. One that is decided takes less, and no larger one is
        better."""
        if not (hexd.tell(b"mustplay") or b"").startswith(b"lost no"):
            return False
        asked = int(self.words.value("look") or options["look"])
        judged = re.match(rb"nodes (\d+)", hexd.tell(b"look-report") or b"")
        return judged is None or int(judged[1]) >= asked

    def searched(self, colour):
        """hexd's own move, which it has played."""
        allowed = self.allowed(colour)
        if allowed:
            return self.searched_in(colour, allowed)
        if self.words.strength and not self.has_trace():
            self.use(self.options_of_strength())
        return self.pondered(colour) or self.hexd.ask(b"genmove %s" % colour)

    def allowed(self, colour):
        """What a player's move may take; None if a strength alone says how much is searched, or hexd's own words."""
        if not self.words.strength or self.has_trace():
            return None
        empty, seconds = self.learn_size(), self.words.seconds
        allowed = Allowed.of(seconds) if seconds else self.clock.allowed(colour, self.size**2, empty)
        if allowed and not self.is_told:
            say(BY_A_CLOCK)
            self.is_told = True
        return allowed

    def searched_in(self, colour, allowed):
        """hexd's own move in a time: the last one of trials, each with more, and of a search with what is left. What was
        pondered is the first trial."""
        self.find_pace()
        began, record, is_trial = self.now(), self.hexd.ask(b"printsgf"), True
        cell = self.pondered(colour)
        while is_trial:
            passed = self.now() - began + self.starting
            factor, is_trial = self.pace.plan(allowed.seconds - passed, allowed.is_risky and not cell)
            limit = None
            if cell:
                if not self.pace.is_worth(factor):
                    break
                self.hexd.ask(b"undo")
                limit = allowed.limit(passed + self.starting)
            self.use(self.pace.options(factor))
            try:
                cell, is_whole = self.noted(self.hexd, colour, self.pace, factor, limit)
            except TooLate:
                return self.played_instead(colour, cell, record)
            is_trial = is_trial and is_whole
        return cell

    def played_instead(self, colour, cell, record):
        """A trial's move, in the place of that of a search which takes too long, by another hexd with the game's record."""
        self.hexd.process.kill()
        self.renew(record)
        self.hexd.ask(b"play %s %s" % (colour, cell))
        return cell
