#!/usr/bin/env python3
"""Two programs that speak GTP play a match, each opening with both colours; hexd is the referee, and knows the rules.

    examples/match.py [--size N] [--openings FILE] [--rounds N] [--swap] [--seconds N] [--folder FOLDER] A B

A and B are command lines, as 'bin/hexd-gtp --strength quick --swap off'. A line of FILE has the moves of an opening, Black's
first, and perhaps a comment behind a `#`; of a table, as openings/even.tsv, those of the size are taken. Without FILE a stone
near even, by board/settings.json, is the only opening. With
--swap White may answer the first stone by `swap-pieces`. With --seconds a player has so many for a game, and is told by
`time_settings` and `time_left`; who has none left loses, as does who resigns, ends, or answers no legal move.

It prints a line for each game: its number, the side that won, its colour, the moves, and how it ended, as in a record (R:
resigned, T: time, F: forfeit). FOLDER, `match` if it isn't said, gets a record of each, with the seconds of each move and what
a program that has `search-visits` or `look-worths` found. Its games are not played again: so a match that was stopped goes on
with the same words. Last come the games won, and the strength of a against b on Elo's scale, with its interval of 95 %.
"""

import argparse
import csv
import json
import re
import shlex
import subprocess
import sys
import time
from pathlib import Path

ROOT = Path(__file__).resolve().parent.parent
sys.path += [str(ROOT / "board"), str(ROOT / "tools")]
import records
import settings
from bradley_terry import fit
from hexd import Engine, EngineEnded
from sgf import decoded, tree_of

COLOURS = {"black": "B", "white": "W"}
SWAP = "swap-pieces"
# Who plays without a clock has so many seconds for an answer; and so many are for the way to a program and back.
PATIENCE, WAY = 600, 0.5
# What a program may say of its search, as pairs of a cell and a number, and how many of them are kept.
THOUGHTS, KEPT = ("search-visits", "look-worths"), 5
INTERRUPTED = 130


class Lost(Exception):
    """A player has lost: by R, T or F."""

    def __init__(self, player, how):
        super().__init__(how)
        self.player, self.how = player, how


class Stopped(Exception):
    """The match can't go on."""


class Player:
    """A program, which is started anew if it has ended."""

    def __init__(self, side, command):
        self.side, self.command, self.engine = side, shlex.split(command), None

    def answer(self, line, seconds=PATIENCE):
        """An answer; Lost if none comes."""
        began = time.monotonic()
        try:
            return self.engine.ask(line, seconds)
        except EngineEnded:
            self.end()
            raise Lost(self, "T" if time.monotonic() - began >= seconds else "F") from None

    def ask(self, line, seconds=PATIENCE):
        """The text of a success; Lost if it is none."""
        answer = self.answer(line, seconds)
        if not answer.done:
            raise Lost(self, "F")
        return answer.text

    def begin(self, size, seconds):
        """A new game, with so many seconds if there is a clock."""
        try:
            if not self.engine:
                self.engine = Engine(self.command, errors=subprocess.DEVNULL)
                self.names = self.ask("list_commands").split()
            self.ask(f"boardsize {size}")
            self.ask("clear_board")
            if seconds:
                self.ask(f"time_settings {seconds} 0 0")
        except (OSError, Lost) as why:
            told = "it takes no command that begins a game" if isinstance(why, Lost) else why.strerror
            raise Stopped(f"{self.side}, {' '.join(self.command)}: {told}") from None
        self.left = seconds

    def move(self, colour):
        """The program's move, and how long it took."""
        if self.left and "time_left" in self.names:
            self.ask(f"time_left {colour} {int(self.left)} 0")
        began = time.monotonic()
        move = self.ask(f"genmove {colour}", self.left + WAY if self.left else PATIENCE).strip().lower()
        took = time.monotonic() - began
        if self.left:
            self.left -= took
            if self.left <= 0:
                raise Lost(self, "T")
        if move == "resign":
            raise Lost(self, "R")
        return {"swap": SWAP}.get(move, move), took

    def thoughts(self):
        """What it says of its search: the cells with the largest numbers."""
        told = []
        for name in filter(self.names.__contains__, THOUGHTS):
            answer = self.answer(name)
            words = answer.text.split() if answer.done else []
            pairs = [(cell, number) for cell, number in zip(words[::2], words[1::2]) if number.isdigit()]
            best = sorted(pairs, key=lambda pair: -int(pair[1]))[:KEPT]
            told += [f"{name}: {', '.join(map(' '.join, best))}"] if best else []
        return told

    def end(self):
        if self.engine:
            self.engine.kill()
            self.engine = None


class Game:
    """A game between two players, refereed by hexd: its moves with what was thought, and its result."""

    def __init__(self, referee, players, options):
        self.referee, self.players, self.options = referee, players, options
        self.nodes, self.moves = [], 0

    def play(self, opening):
        """Plays it: who won, `black` or `white`, and how."""
        self.referee.ask(f"boardsize {self.options.size}")
        for player in self.players.values():
            player.begin(self.options.size, self.options.seconds)
        colour, other = COLOURS
        try:
            while self.moves < len(opening) or self.referee.ask("winner").text == "none":
                move, thoughts = (opening[self.moves], None) if self.moves < len(opening) else self.asked(colour)
                self.take(colour, move, thoughts)
                colour, other = other, colour
        except Lost as lost:
            return next(name for name, player in self.players.items() if player is not lost.player), lost.how
        return other, ""

    def asked(self, colour):
        """A player's move, and what he thought."""
        player = self.players[colour]
        move, took = player.move(colour)
        return move, [f"{player.side}, {took:.2f} s", *player.thoughts()]

    def take(self, colour, move, thoughts):
        """Has a move played, if it is one, by the referee and by both programs but who made it."""
        is_refused = thoughts and move == SWAP and not self.options.swap or not re.fullmatch(r"[a-z0-9-]+", move)
        if is_refused or not self.referee.ask(f"play {colour} {move}").done:
            if not thoughts:
                raise Stopped(f"an opening has no legal move {move} of {colour} after {self.moves} moves")
            raise Lost(self.players[colour], "F")
        for of, player in self.players.items():
            if not (thoughts and of == colour):
                player.ask(f"play {colour} {move}")
        self.moves += 1
        self.nodes.append(f";{COLOURS[colour]}[{move}]C[{escaped('; '.join(thoughts or ['opening']))}]")

    def record(self, number, result):
        """The game's record."""
        names = "".join(f"P{COLOURS[colour]}[{escaped(player.side)}]" for colour, player in self.players.items())
        root = f"FF[4]GM[11]SZ[{self.options.size}]GN[{number}]{names}RE[{result}]"
        return f"(;{root}\n{chr(10).join(self.nodes)})\n"


def escaped(text):
    return text.replace("\\", "\\\\").replace("]", "\\]")


def openings_of(options):
    """The openings, each a list of moves."""
    if not options.openings:
        even = settings.TABLE["even"].get(str(options.size))
        return [[even] if even else []]
    lines = Path(options.openings).read_text().splitlines()
    if lines[:1] and "\t" in lines[0]:
        lines = [row["moves"] for row in csv.DictReader(lines, delimiter="\t") if row["size"] == str(options.size)]
        if not lines:
            raise Stopped(f"{options.openings} has no opening of size {options.size}")
    moves = [line.partition("#")[0].split() for line in lines]
    return [line for line in moves if line]


def read_game(path):
    """Who won a game that was played, by its record: the side, his colour, the moves, and how."""
    content = path.read_bytes()
    root = tree_of(decoded(content))[0].properties
    winner, _, how = root["RE"][0].partition("+")
    colour = next(name for name, letter in COLOURS.items() if letter == winner)
    return root[f"P{winner}"][0], colour, records.read(content).main.count(";") - 1, how


class Match:
    """All games, of which those in the folder were played."""

    def __init__(self, options):
        self.options, self.folder = options, Path(options.folder)
        self.openings = openings_of(options)
        self.players = [Player("a", options.a), Player("b", options.b)]
        self.wins = {("a", "b"): 0, ("b", "a"): 0}

    def begin(self):
        """Makes the folder, or finds that it has this match."""
        self.folder.mkdir(parents=True, exist_ok=True)
        file = self.folder / "match.json"
        names = ("size", "swap", "seconds", "a", "b")
        said = {**{name: getattr(self.options, name) for name in names}, "openings": self.openings}
        # An empty one is of a match that was ended while it was written.
        known = file.read_text() if file.exists() else ""
        if known and json.loads(known) != said:
            raise Stopped(f"{self.folder} has another match; --folder names one for this")
        if not known:
            part = file.with_suffix(".part")
            part.write_text(json.dumps(said, indent=1) + "\n")
            part.replace(file)

    def games(self):
        """The number of each game, with its opening, and whether a is Black."""
        for number in range(2 * len(self.openings) * self.options.rounds):
            yield number, self.openings[number // 2 % len(self.openings)], number % 2 == 0

    def play(self):
        with Engine.start() as referee:
            for number, opening, is_first in self.games():
                path = self.folder / f"{number}.sgf"
                if not path.exists():
                    players = self.players if is_first else self.players[::-1]
                    self.play_one(Game(referee, dict(zip(COLOURS, players)), self.options), number, opening, path)
                side, colour, moves, how = read_game(path)
                self.wins[side, "b" if side == "a" else "a"] += 1
                print(number, side, colour, moves, how or "joined", flush=True)

    @staticmethod
    def play_one(game, number, opening, path):
        """Plays a game, whose file is there when it is whole."""
        winner, how = game.play(opening)
        part = path.with_suffix(".part")
        part.write_text(game.record(number, f"{COLOURS[winner]}+{how}"))
        part.replace(path)

    def tell(self):
        won, lost = self.wins["a", "b"], self.wins["b", "a"]
        print(f"a {won} b {lost}")
        if won + lost:
            strength, width = fit(["b", "a"], self.wins)["a"]
            print(f"a is stronger by {strength:+.0f} ± {width:.0f}")

    def end(self):
        for player in self.players:
            player.end()


def words_of(given):
    parser = argparse.ArgumentParser(description=__doc__, formatter_class=argparse.RawDescriptionHelpFormatter)
    parser.add_argument("--size", metavar="N", type=settings.number(1, settings.LARGEST), default=settings.LARGEST)
    parser.add_argument("--openings", metavar="FILE")
    parser.add_argument("--rounds", metavar="N", type=settings.number(1, 1_000), default=1)
    parser.add_argument("--swap", action="store_true")
    parser.add_argument("--seconds", metavar="N", type=settings.number(1, 100_000), default=0)
    parser.add_argument("--folder", metavar="FOLDER", default="match")
    parser.add_argument("a", metavar="A")
    parser.add_argument("b", metavar="B")
    return parser.parse_args(given)


def main():
    options = words_of(sys.argv[1:])
    match, status = None, 0
    try:
        match = Match(options)
        match.begin()
        match.play()
    except KeyboardInterrupt:
        status = INTERRUPTED
    except (Stopped, OSError, EngineEnded, records.Refused, ValueError) as why:
        print(f"match.py: {why}", file=sys.stderr)
        status = 1
    if match:
        match.end()
        match.tell()
    return status


if __name__ == "__main__":
    sys.exit(main())
