"""How much hexd is asked to search in a time, by how long it took for what it searched before. It knows no process: who
searches tells it how long that took."""

import copy

import settings

TABLE = settings.TABLE["clock"]
# What a search may be given more of, or less.
SCALED = ("look", "solve", "playouts")
# Of so many searches the slowest counts.
MEASURED = 2
# A search that takes so many seconds says enough of larger ones.
LONG_ENOUGH = 0.1
# Nobody knows what a search costs that is more than so many times as large as the last; a trial takes this share of the time.
GROWTH, TRIAL = 6, 0.2
# Another search of a move is worth its time if it is so many times as large as the one before.
WORTH = 1.5
# A new hexd isn't worth it for a search that is larger by less than this share.
SMALL_CHANGE = 0.08


class Pace:
    """The pace of hexd on boards of a size. A factor stands for options: those of the table's unit, so many times."""

    def __init__(self, size):
        self.unit = settings.strength_options(TABLE["unit"], size)
        # The factor of the last search, and what each of the last ones cost for one of the unit, in seconds.
        self.factor, self.costs = None, []

    @property
    def least(self):
        """The factor of a search of one node."""
        return 1 / self.unit["look"]

    @property
    def largest(self):
        """The factor with which the first of the numbers is as large as it may be."""
        return min(self.most(name) / self.unit[name] for name in SCALED if self.unit[name])

    @staticmethod
    def most(name):
        return min(TABLE["most"], settings.ASKED[name][1])

    @property
    def is_known(self):
        return bool(self.costs)

    def options(self, factor):
        """hexd's options for a factor."""
        scaled = {name: max(1, min(self.most(name), round(self.unit[name] * factor))) for name in SCALED if self.unit[name]}
        return {**self.unit, **scaled}

    def plan(self, seconds, is_risky):
        """The factor of the next search, of which so many seconds are left, and whether it is a trial."""
        if not self.is_known:
            return self.least, True
        wanted = min(self.largest, seconds / max(self.costs))
        if wanted > GROWTH * self.factor or is_risky and wanted > self.least:
            return self.whole(TRIAL * wanted), True
        if (1 - SMALL_CHANGE) * wanted <= self.factor <= wanted:
            return self.factor, False
        return self.whole(wanted), False

    def whole(self, factor):
        """The nearest factor with a whole number of nodes below this one, but for the least."""
        return max(1, int(factor / self.least)) * self.least

    def is_worth(self, factor):
        """Whether it is worth searching anew with this factor."""
        return self.factor is None or factor >= WORTH * self.factor

    def copy(self):
        """The same pace, of which more is noted without a change of this one."""
        return copy.copy(self)

    def note(self, factor, seconds, is_whole):
        """Takes down how long a search took, if it went to its end: what is decided may take less."""
        self.factor = factor
        if is_whole:
            self.costs = [*self.costs, max(seconds, 1e-6) / factor][-MEASURED:]
