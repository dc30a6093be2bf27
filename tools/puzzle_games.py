"""Games of hexd against itself, in which tools/puzzles looks for puzzles: weak ones, from openings that are drawn by lot.

The moves of a game are those of its seed and its number alone: hexd searches with one worker.
"""

import random
import sys

from programs import ROOT
from puzzle_files import vertices

sys.path.append(str(ROOT / "board"))
import hexd

# The games go over these sizes in turn, with so many stones at the least: of fewer the solver often has no end.
SIZES = 4, 5, 6, 5, 6, 7
LEAST_STONES = {4: 2, 5: 2, 6: 4, 7: 10}
# How hexd plays: so weakly that who is to move has often something to find.
WORDS = "--look", "5", "--playouts", "20", "--weight", "0"
COLOURS = "bw"


def size_of(number):
    return SIZES[number % len(SIZES)]


def moves_of(seed, number):
    """The moves of a game, Black's first: so many by lot as it draws, and then hexd's up to the end."""
    lot, size, moves = random.Random(f"{seed} {number}"), size_of(number), []
    drawn = lot.sample(vertices(size), lot.randint(1, size))
    with hexd.Engine.start("--size", str(size), "--seed", str(number), *WORDS) as engine:
        while engine.ask("winner").text == "none":
            colour = COLOURS[len(moves) % 2]
            if drawn:
                moves.append(drawn.pop())
                engine.ask(f"play {colour} {moves[-1]}")
            else:
                moves.append(engine.ask(f"genmove {colour}").text)
    return moves


def positions_of(seed, number):
    """The stones (Black's, White's) of the positions of a game with Black to move, the last first."""
    moves, size = moves_of(seed, number), size_of(number)
    for count in range((len(moves) - 1) // 2 * 2, LEAST_STONES[size] - 1, -2):
        yield tuple(moves[:count:2]), tuple(moves[1:count:2])
