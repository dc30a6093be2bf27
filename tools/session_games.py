"""A block of a study whose games two sessions of `hexd htp` play, a side each: with connections, and with every option.

A game begins with stones that are drawn by the block's seed, Black's first; each beginning is played twice, with the colours
changed. Without such stones two settings that search no tree of playouts would play one game again and again.
"""

import os
import random
import sys
from pathlib import Path

from programs import HEXD, ROOT, released
from studies import RELEASE

sys.path.append(str(ROOT / "board"))
from hexd import Engine, EngineEnded

SIDES = "ab"
# Between the seeds of the sides: a session's searches lie within this distance.
SIDE_STEP = 2**50
LETTERS = "abcdefghijk"
SECONDS = 1 / os.sysconf("SC_CLK_TCK")


class Side:
    """A session of one side, with the processor time of its moves and their number."""

    def __init__(self, options, size, seed):
        program = released(options[RELEASE]) if RELEASE in options else HEXD
        words = [f"--{name}={value}" for name, value in options.items() if name != RELEASE]
        self.session = Engine.start(f"--size={size}", f"--seed={seed}", *words, program=program)
        self.seconds, self.moves = 0.0, 0

    def used(self):
        """The seconds of the processor that its process has taken."""
        fields = Path(f"/proc/{self.session.process.pid}/stat").read_text().rpartition(")")[2].split()
        return (int(fields[11]) + int(fields[12])) * SECONDS

    def told(self, line):
        """The text that answers a line, which has to be obeyed."""
        answer = self.session.ask(line)
        if not answer.done:
            raise EngineEnded(f"hexd refuses {line}: {answer.text}")
        return answer.text

    def move(self, colour):
        before = self.used()
        vertex = self.told(f"genmove {colour}")
        self.seconds, self.moves = self.seconds + self.used() - before, self.moves + 1
        return vertex


def beginning(size, stones, draw):
    """The vertices on which a game has stones before its first move."""
    return [LETTERS[cell % size] + str(cell // size + 1) for cell in draw.sample(range(size**2), stones)]


def game(black, white, stones):
    """Plays a game from these stones on: the colour that won, and how many stones it has."""
    players, colours = (black, white), ("black", "white")
    for side in players:
        side.told("clear_board")
    count = 0
    while (winner := black.told("winner")) == "none":
        mover, other, colour = players[count % 2], players[1 - count % 2], colours[count % 2]
        if count < len(stones):
            vertex = stones[count]
            mover.told(f"play {colour} {vertex}")
        else:
            vertex = mover.move(colour)
        other.told(f"play {colour} {vertex}")
        count += 1
    return winner, count


def played(size, games, seed, stones, options):
    """The text of a block: a line for each game, the processor seconds and the moves of each side, and the games that it won."""
    sides = [Side(words, size, seed + at * SIDE_STEP) for at, words in enumerate(options)]
    draw, won, lines = random.Random(seed), {side: 0 for side in SIDES}, []
    try:
        for number in range(games):
            if number % 2 == 0:
                begun = beginning(size, stones, draw)
            order = sides if number % 2 == 0 else sides[::-1]
            winner, count = game(*order, begun)
            side = SIDES[sides.index(order[winner == "white"])]
            won[side] += 1
            lines.append(f"{number} {side} {winner} {count}\n")
    finally:
        for side in sides:
            side.session.kill()
    times = " ".join(f"{name} {side.seconds:.2f} {side.moves}" for name, side in zip(SIDES, sides))
    return "".join(lines) + f"seconds {times}\na {won['a']} b {won['b']}\n"
