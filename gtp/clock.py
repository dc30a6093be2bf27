"""How long a move may take, by what a driver says of time. It knows no process: gtp/pace.py has how much is searched then."""

from dataclasses import dataclass

# So many of the cells are expected to be filled by a player's moves, and no fewer than so many moves are ahead of him.
SHARE_OF_CELLS, FEWEST_MOVES = 0.25, 8
# In the first third of these moves each gets so many times as much as one behind it.
EARLY, THIRD = 1.5, 1 / 3
# What is left out of a move's time: a share, and seconds for the way to the driver and back.
SPARE, LAG = 0.04, 0.02
LEAST_SECONDS = 0.01
# A machine may grow so many times slower between two moves.
SLOWER = 4


@dataclass
class Left:
    """A player's time: seconds of the main time, and of a period if he is in one, with the moves that it is for."""

    main: float
    period: float | None = None
    moves: int = 1


@dataclass(frozen=True)
class Allowed:
    """What a move may take: the seconds that it aims at, and those after which the time is lost, if it can be."""

    seconds: float
    flag: float | None = None

    @classmethod
    def of(cls, share, flag=None):
        """A move whose share is so many seconds."""
        return cls(max(LEAST_SECONDS, share * (1 - SPARE) - LAG), flag)

    @property
    def is_risky(self):
        """Whether the time would be lost on a machine that has grown slower."""
        return self.flag is not None and SLOWER * self.seconds > self.flag

    def limit(self, passed):
        """How long a search may go on when so many seconds have passed."""
        return None if self.flag is None else max(0.0, self.flag * (1 - SPARE) - LAG - passed)


def share_of_main(cells, empty):
    """Which share of the main time that is left is for the next move, on a board of so many cells."""
    expected, made = max(FEWEST_MOVES, cells * SHARE_OF_CELLS), (cells - empty) / 2
    third = expected * THIRD
    early, late = max(0.0, third - made), min(expected - made, expected - third)
    return (EARLY if made < third else 1) / max(FEWEST_MOVES, EARLY * early + late)


class Clock:
    """The time of both players, by the last settings. A new game begins with all of it."""

    def __init__(self):
        self.main, self.period, self.moves, self.each = None, 0.0, 1, False
        self.left = {}

    @property
    def is_on(self):
        return self.main is not None

    def set(self, main, period=0, moves=0, each=False):
        """Main time, and behind it periods for so many moves each; `each`: a period is for one move, and comes again."""
        # Time without moves that it is for is no limit, and no time at all is none either.
        limited = main > 0 and not period or moves > 0 and period > 0
        self.main = main if limited else None
        self.period, self.moves, self.each = period, 1 if each else max(1, moves), each
        self.begin()

    def begin(self):
        """Begins a game."""
        self.left = {colour: Left(self.main) for colour in (b"B", b"W")} if self.is_on else {}

    def tell(self, colour, seconds, moves):
        """What a driver says of a player's time: the main time's without moves, else that of a period for these moves."""
        if self.is_on:
            in_period = moves > 0 and self.period
            self.left[colour] = Left(0.0, seconds, 1 if self.each else moves) if in_period else Left(seconds)

    def spend(self, colour, seconds):
        """Takes what a move took off a player's time."""
        if not self.is_on:
            return
        left = self.left[colour]
        if left.period is None and seconds < left.main:
            left.main -= seconds
            return
        # The rest is of a period, which begins now if none had begun.
        seconds -= left.main
        period, moves = (self.period, self.moves) if left.period is None else (left.period, left.moves)
        if moves > 1:
            self.left[colour] = Left(0.0, period - seconds, moves - 1)
        else:
            self.left[colour] = Left(0.0, self.period, self.moves) if self.period else Left(0.0)

    def share(self, colour, cells, empty):
        """The seconds that are for a player's move, on a board of so many cells of which so many are empty."""
        left = self.left[colour]
        if left.period is not None:
            return left.period / left.moves
        return left.main * share_of_main(cells, empty) + self.period / self.moves

    def flag(self, colour):
        """After how many seconds a player's time is lost, if he doesn't move."""
        left = self.left[colour]
        return left.main + self.period if left.period is None else left.period

    def allowed(self, colour, cells, empty):
        """What a player's move may take, or None without a clock."""
        return Allowed.of(self.share(colour, cells, empty), self.flag(colour)) if self.is_on else None
