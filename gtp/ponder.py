"""Pondering: after hexd's own move another hexd, beside the game's, finds the reply that it expects, and its own answer to that.
If this reply comes, the one that has the answer takes the game over. Any line ends it; behind one that leaves the game as it is
it begins anew."""

import os
import re

from engine import NotStarted
from forms import OTHER
from holder import Holder
from programs import HexdEnded

# By so much the seeds of a session's moves differ (docs/use/MANUAL.md, genmove), and so many of them there are.
SEED_STEP, SEEDS = 1 << 32, 1 << 64
# The moves that it makes: the reply, and the answer.
MADE = 2
# What is answered: that the game is loaded, the reply, the game with it, and the move that answers it.
ANSWERS = re.compile(rb"= \n\n= (\w+)\n\n= (.*)\n\n= (\w+)\n\n")


class Ponder:
    """A hexd that is at work on a reply to a player's move, and on his answer to it."""

    def __init__(self, engine, colour, record, settings):
        self.engine, self.colour, self.record, self.settings = engine, colour, record, settings
        self.text, self.found = b"", None
        self.file = os.memfd_create("game")
        os.write(self.file, record)
        # All is asked at once, so that nothing has to be waited for.
        asked = b"loadsgf /proc/%d/fd/%d\ngenmove %s\nprintsgf\ngenmove %s\n"
        try:
            engine.send(asked % (os.getpid(), self.file, OTHER[colour], colour))
        except HexdEnded:
            self.end()

    @property
    def stream(self):
        """Where its answers come from; None once there is nothing more to come."""
        return self.engine.process.stdout if self.engine and not self.found else None

    def hear(self):
        """Takes what has come."""
        more = os.read(self.stream.fileno(), 65536)
        self.text += more
        self.found = ANSWERS.fullmatch(self.text)
        # After a game that is over there is no move.
        if not more or self.text.count(b"\n\n") == 4 and not self.found:
            self.end()

    def end(self):
        """Ends it, wherever it is."""
        if self.engine:
            self.engine.process.kill()
            self.engine.close()
            self.engine, self.found = None, None
            os.close(self.file)

    def taken(self):
        """Its hexd, which is its own no more."""
        os.close(self.file)
        engine, self.engine = self.engine, None
        engine.made = MADE
        return engine


class Pondering(Holder):
    """A hexd that ponders, if its words say so."""

    ponder = None
    # What the last move of its own was, as the colour and the game behind it.
    moved_last = None

    def has_moved(self, colour):
        """After a move of its own, on the reply to which it may ponder."""
        self.moved_last = (colour, self.hexd.ask(b"printsgf")) if self.words.ponders and not self.has_trace() else None

    def settings(self):
        return self.words, self.given

    def begin_pondering(self):
        """Ponders, if the game is as it was after its own move, and nothing is found yet."""
        if not self.moved_last or self.ponder and self.ponder.engine and self.ponder.record == self.moved_last[1]:
            return
        colour, record = self.moved_last
        try:
            if self.hexd.ask(b"printsgf") == record and self.hexd.ask(b"winner") == b"none":
                self.stop_pondering()
                self.ponder = Ponder(self.beside(self.given, self.seed_before()), colour, record, self.settings())
        except (HexdEnded, NotStarted):
            # The game's hexd goes on, or says itself that it doesn't.
            self.moved_last = None

    def seed_before(self):
        """The seed of a hexd of which the last move that it makes has the one that the game's next move would have."""
        return (self.hexd.seed + SEED_STEP * (self.hexd.made - MADE + 1)) % SEEDS

    def pause_pondering(self):
        """Another line has come: what is found stands, and what is at work ends."""
        if self.ponder and not self.ponder.found:
            self.stop_pondering()

    def stop_pondering(self):
        if self.ponder:
            self.ponder.end()
            self.ponder = None

    def pondered(self, colour):
        """Its move, if that was found before, with the hexd that found it in the place of the game's; else None."""
        ponder = self.ponder
        if not (ponder and ponder.found and ponder.colour == colour and ponder.settings == self.settings()):
            return None
        if ponder.found[2] != self.hexd.ask(b"printsgf"):
            return None
        last, self.hexd, self.ponder = self.hexd, ponder.taken(), None
        last.close()
        return ponder.found[3]
