"""A hexd with the options that are wanted. hexd takes its options at its start: so another one takes over the game if others
are wanted."""

import time

import settings
from engine import Engine, Refused

LARGEST_SIZE = 11


class Holder:
    """hexd, by the filter's words."""

    def __init__(self, words, now=time.monotonic):
        self.words, self.now = words, now
        self.size = int(words.value("size") or LARGEST_SIZE)
        self.given = self.options_of_strength()
        # How long the last one took to begin.
        self.starting = 0.0
        self.hexd = self.started(self.given)
        self.hexd.greet()

    def options_of_strength(self):
        return settings.strength_options(self.words.strength, self.size) if self.words.strength else {}

    def started(self, options):
        return Engine(self.words.of_hexd(options))

    def beside(self, options, seed=None):
        """A hexd beside the game's, which writes no trace; with another seed than the words' if it is said."""
        words = self.words.without("trace")
        return Engine((words if seed is None else words.having("seed", seed)).of_hexd(options))

    def has_trace(self):
        """Whether traces are written, of which the file would be emptied by another hexd's first."""
        return self.words.value("trace") is not None

    def renew(self, record=None):
        """Puts another hexd, with the options that are wanted, in the place of this one, with its game."""
        record, last, began = record or self.hexd.ask(b"printsgf"), self.hexd, self.now()
        self.hexd = self.started(self.given)
        try:
            self.hexd.load_text(record)
        except Refused:
            last, self.hexd = self.hexd, last
            raise
        finally:
            last.close()
        self.starting = self.now() - began

    def change(self, words):
        """Goes on by other words, in another hexd."""
        last = self.words, self.given
        self.words = words
        self.given = self.options_of_strength()
        try:
            self.renew()
        except Refused:
            self.words, self.given = last
            raise

    def use(self, options):
        """Has a hexd with these options, if another one can load the game."""
        if options == self.given:
            return
        last, self.given = self.given, options
        try:
            self.renew()
        except Refused:
            self.given = last

    def learn_size(self):
        """The size of the board as it is now, and how many cells are empty."""
        rows = self.hexd.ask(b"showboard").splitlines()[2:]
        self.size = len(rows)
        return sum(row.count(b".") for row in rows)
