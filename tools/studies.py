"""Studies: settings of the search that are compared, and the matches that are played for it, cut into blocks.

A study is a text. A line is a name and its value, `#` begins a comment:

    size 11                              the board's size
    games 20                             games of a block, an even number, so that both sides are Black as often
    blocks 5                             blocks of each match
    seed 0                               the number of the first block, 0 if it isn't said
    setting s180 playouts=1000           a setting: its name, and what of hexmatch's options for a side it says otherwise
    setting s0 playouts=1000 weight=0
    setting old release=9eef6444         of games by hexd: the program that release/ has in this commit, not that of the tree
    match s180 s0                        which settings meet; without such lines each meets each
    by hexd                              two sessions of hexd play, with connections (tools/session_games.py), not hexmatch
    stones 2                             with how many stones on the board such a game begins, 0 if it isn't said

Block k, counted over the whole study, is one run of hexmatch with `--seed` k·2^51, or a block of tools/session_games.py with
this seed: the seeds of the turns of a block lie within 2^51, so no two blocks share one.
"""

import itertools
import re
from dataclasses import dataclass, field
from pathlib import Path

# A block's seeds lie below this distance, and there are 2^64 seeds.
SEED_STEP = 2**51
MOST_BLOCKS = 2**13
# hexmatch's options for a side, with their ranges.
RANGES = {
    "playouts": (1, 1_000_000), "words": (1_024, 16_777_216), "expand": (1, 1_000), "weight": (0, 1_024),
    "solve": (0, 10_000_000), "look": (0, 1_000_000),
}
NUMBERS = {
    "size": (1, 11), "games": (2, 1_000), "blocks": (1, MOST_BLOCKS), "seed": (0, MOST_BLOCKS - 1), "stones": (0, 2),
}
PROGRAMS = ["hexmatch", "hexd"]
# What names the program of a setting, and the start of a commit's name.
RELEASE, COMMIT = "release", re.compile(r"[0-9a-f]{7,40}")
# A line of a game, and the last line, as hexmatch writes them.
GAME = re.compile(r"(\d+) (a|b|none) (black|white|none) (\d+)")
LAST = re.compile(r"a (\d+) b (\d+)")
# What the sides have taken of the processor, and their moves, as tools/session_games.py writes it.
TIMES = re.compile(r"seconds a ([\d.]+) (\d+) b ([\d.]+) (\d+)")


class Fault(Exception):
    """What is wrong with a study or with a block's text, in words."""


@dataclass
class Study:
    """The settings by name, with their options; which meet; and the numbers of a block."""

    size: int = 11
    games: int = 20
    blocks: int = 1
    seed: int = 0
    stones: int = 0
    by: str = "hexmatch"
    settings: dict = field(default_factory=dict)
    matches: list = field(default_factory=list)

    def pairs(self):
        return self.matches or list(itertools.combinations(self.settings, 2))

    def is_paired(self):
        """Whether there are several matches, and no setting stands in two."""
        names = [name for pair in self.pairs() for name in pair]
        return len(names) > 2 and len(set(names)) == len(names)

    def count(self):
        """How many blocks the study has."""
        return len(self.pairs()) * self.blocks

    def pair_of(self, block):
        """The settings that meet in a block: the first blocks of all matches come first, so that all grow alike."""
        return self.pairs()[block % len(self.pairs())]

    def seed_of(self, block):
        return (self.seed + block) * SEED_STEP

    def words_of(self, block):
        """The words of the run of hexmatch that plays a block; of two sessions of hexd, the same and the stones."""
        words = ["--size", self.size, "--games", self.games, "--seed", self.seed_of(block)]
        words += ["--stones", self.stones] if self.by == "hexd" else []
        for side, name in zip("ab", self.pair_of(block)):
            for option, value in self.settings[name].items():
                words += [f"--{option}-{side}", value]
        return [str(word) for word in words]


def number(name, word, ranges):
    low, high = ranges[name]
    if not word.isascii() or not word.isdigit() or not low <= int(word) <= high:
        raise Fault(f"{name} {word!r} is no number from {low:,} to {high:,}")
    return int(word)


def read_setting(words):
    """A setting's options."""
    options = {}
    for word in words:
        name, _, value = word.partition("=")
        if name == RELEASE and COMMIT.fullmatch(value) and name not in options:
            options[name] = value
        elif name in RANGES and name not in options:
            options[name] = number(name, value, RANGES)
        else:
            raise Fault(f"{word!r} is no option of a side, or one that was said")
    return options


def read_line(study, name, words):
    if name in NUMBERS and len(words) == 1:
        setattr(study, name, number(name, words[0], NUMBERS))
    elif name == "by" and len(words) == 1 and words[0] in PROGRAMS:
        study.by = words[0]
    elif name == "setting" and words and re.fullmatch(r"[\w.+-]+", words[0]) and words[0] not in study.settings:
        study.settings[words[0]] = read_setting(words[1:])
    elif name == "match" and len(words) == 2 and words[0] != words[1] and set(words) <= set(study.settings):
        study.matches.append(tuple(words))
    else:
        raise Fault(f"{' '.join([name, *words])!r} is no line of a study")


def read(path):
    """The study of a file."""
    study = Study()
    for at, line in enumerate(Path(path).read_text(encoding="utf-8").splitlines(), 1):
        name, *words = line.partition("#")[0].split() or [""]
        try:
            if name:
                read_line(study, name, words)
        except Fault as fault:
            raise Fault(f"{path}, line {at}: {fault}") from None
    if study.stones and study.by != "hexd" or study.stones > study.size**2 // 2:
        raise Fault(f"{path}: so many stones stand on no board, or games are not played by hexd")
    if study.by != "hexd" and any(RELEASE in options for options in study.settings.values()):
        raise Fault(f"{path}: releases are named where hexd plays")
    if len(study.settings) < 2 or study.games % 2 or study.seed + study.count() > MOST_BLOCKS:
        raise Fault(f"{path}: a study has two settings or more, an even number of games, and at most {MOST_BLOCKS:,} blocks")
    return study


def times_in(text):
    """The seconds of the processor and the moves of both sides, if the text has them: a pair for each side."""
    found = TIMES.search(text)
    return found and ((float(found[1]), int(found[2])), (float(found[3]), int(found[4])))


def wins_in(text, games):
    """How many games the sides have won by the text of a block. Fault if it is none of so many games."""
    *lines, last = re.sub(rf"^{TIMES.pattern}\n", "", text, flags=re.M).splitlines() or [""]
    found, sums = [GAME.fullmatch(line) for line in lines], LAST.fullmatch(last)
    numbers = [int(game[1]) for game in found if game]
    sides = [game[2] for game in found if game]
    if not sums or not text.endswith("\n") or numbers != list(range(games)) or len(lines) != games:
        raise Fault(f"no text of a match of {games} games")
    if (sides.count("a"), sides.count("b")) != (int(sums[1]), int(sums[2])):
        raise Fault("the last line has other sums than the games")
    return sides.count("a"), sides.count("b")
