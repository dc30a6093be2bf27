"""The words with which board and report start hexd, and the table of its strengths, settings.json."""

import argparse
import json
import os
from dataclasses import dataclass
from pathlib import Path

# How strongly hexd plays for the page, the board and hexd-gtp: `strengths` by their names, whose numbers may go by the size of
# the board; how numbers are chosen for a clock; and an opening near even for each size.
TABLE = json.loads(Path(__file__).resolve().with_name("settings.json").read_text())
# What hexd's look-ahead once said of each first stone of boards on which not all is proved, by tools/first_stones.py.
GUESSED = json.loads(Path(__file__).resolve().with_name("guessed.json").read_text())
# The ranges of hexd's own options of these names.
RANGES = {"playouts": (1, 1_000_000), "weight": (0, 1_024), "workers": (1, 64)}
# And of those that a session of the page may ask for.
ASKED = {**RANGES, "look": (0, 1_000_000), "solve": (0, 10_000_000)}
del ASKED["workers"]
MOST_WORKERS = 4
# That of all programs here (tools/words.bash).
VERSION = "1.0"
LARGEST = 11
BEST = {"playouts": 100_000, "weight": 0, "workers": min(MOST_WORKERS, len(os.sched_getaffinity(0)))}
HELP = {
    "playouts": "how many playouts a search makes",
    "weight": "how much exploration weighs in a score",
    "workers": "by how many workers",
}


class Parser(argparse.ArgumentParser):
    """One whose complaint is one line, which names the wrong word."""

    def __init__(self, **how):
        super().__init__(allow_abbrev=False, **how)
        self.add_argument("--version", action="version", version=f"%(prog)s {VERSION}", help="say the version")

    def error(self, message):
        self.exit(2, f"{self.prog}: {message} (--help has all words)\n")


def number(low, high):
    """The reader of a number in a range."""

    def read(word):
        if not (word.isascii() and word.isdigit() and len(word) <= 20 and low <= int(word) <= high):
            raise argparse.ArgumentTypeError(f"{word!r} is no number from {low:,} to {high:,}")
        return int(word)

    return read


def add_options(parser, usual=BEST):
    """Adds the options to a parser of words, with these defaults; None for an option without one."""
    for name, (low, high) in RANGES.items():
        default = usual.get(name)
        text = f"{HELP[name]}, {low:,} to {high:,}" + ("" if default is None else f"; {default:,} by default")
        parser.add_argument(f"--{name}", metavar="N", type=number(low, high), default=default, help=text)


def given_of(options):
    return {name: getattr(options, name) for name in RANGES}


@dataclass(frozen=True)
class Given:
    """How the board's server was started: playouts and weight, if they were given, and the workers."""

    started: dict | None
    workers: int

    @classmethod
    def of(cls, given):
        """From the options that were given, None for those that weren't."""
        asked = {name: given[name] for name in ("playouts", "weight") if given[name] is not None}
        started = {name: asked.get(name, BEST[name]) for name in ("playouts", "weight")}
        return cls(started if asked else None, given["workers"])

    @property
    def usual(self):
        """The options of a session of which nothing is said."""
        return self.started or strength_options(TABLE["default"], LARGEST)


def strength_options(name, size):
    """hexd's options for a strength of the table on a size of board: those of weight, playouts, look and solve that it has."""
    given = TABLE["strengths"][name]
    return {option: by_size(value, size) if isinstance(value, dict) else value for option, value in given.items()}


def by_size(values, size):
    """The value of a table by sizes: that of the least size in it that isn't below this one."""
    sizes = sorted(map(int, values))
    return values[str(next((least for least in sizes if least >= size), sizes[-1]))]


def asked_of(text):
    """The options that a text asks for, as `look=400 playouts=1000`; a ValueError says which word is wrong."""
    asked = {}
    for word in text.split():
        name, _, value = word.partition("=")
        if name not in ASKED or name in asked:
            raise ValueError(f"{word[:40]!r} is no option of a session")
        try:
            asked[name] = number(*ASKED[name])(value)
        except argparse.ArgumentTypeError as why:
            raise ValueError(f"{name}: {why}") from None
    return asked


def words_of(given):
    """hexd's words for these settings."""
    return [f"--{name}={value}" for name, value in given.items()]


def told(given):
    """The settings as a sentence's end."""
    workers = "1 worker" if given["workers"] == 1 else f"{given['workers']} workers"
    return f"{given['playouts']:,} playouts a move, weight {given['weight']}, {workers}"


def told_of_board(given):
    """How the board's hexd plays, as a sentence's end."""
    if given.started:
        return f"searches with {told({**given.started, 'workers': given.workers})}"
    return f"plays at the strength '{TABLE['default']}', or another one that the page chooses"
