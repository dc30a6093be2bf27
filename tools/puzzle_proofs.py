"""Who wins after each cell of a position with Black to move, by `hexd solve`, with certificates: what makes it a puzzle."""

import heapq
import re
import sys

import second_checker
from programs import ROOT
from puzzle_files import GRADES, HEAD, Puzzle, in_order, names_cell, vertices

sys.path += [str(ROOT / "board"), str(ROOT / "examples")]
import hexd
from winning_move import winning_move

# The positions that a search may enter: what a page solves again takes no longer than a second or two.
BUDGET = 500
# So many cells may win, and so many stones of Black's have to be missing between his edges.
MOST_WINS, LEAST_MISSING = 3, 3
# The most positions of an easy puzzle, which connections alone show, and of a medium one.
EASY, MEDIUM = 1, 5


class Unsolved(Exception):
    """The budget isn't enough."""


def solved(puzzle, cell=None, budget=BUDGET):
    """Who wins a puzzle's position, or the one after Black's stone on a cell, with the certificate. Unsolved if that isn't
    known; a certificate is missing if the game is over."""
    stones = "".join(f"A{name}" + "".join(f"[{vertex}]" for vertex in of) for name, of in
                     (("B", puzzle.black), ("W", puzzle.white)))
    said = hexd.solve(f"(;GM[11]SZ[{puzzle.size}]{stones}{f';B[{cell}]' if cell else ''})".encode(), budget)
    if not said.first.startswith(("won ", "over ")):
        raise Unsolved
    return said.winner, said.certificate


def missing(puzzle):
    """How many stones Black lacks at the least to be joined; None if White's stones leave him no way."""
    size, near = puzzle.size, second_checker.neighbours(puzzle.size, "black")
    edges = size**2, size**2 + 1
    costs = {cell: vertex in puzzle.empty for cell, vertex in enumerate(vertices(size)) if vertex not in puzzle.white}
    costs |= dict.fromkeys(edges, 0)
    ways, found = [(0, edges[0])], {}
    while ways:
        lacking, at = heapq.heappop(ways)
        if at in found:
            continue
        found[at] = lacking
        for place in second_checker.members(near[at]):
            if place in costs:
                heapq.heappush(ways, (lacking + costs[place], place))
    return found.get(edges[1])


def shortened(text):
    """A certificate without the lines that its claim doesn't need; lines `put` stay as far as they change the scope."""
    lines = text.splitlines()
    head, lines, (claim, last) = lines[:HEAD], lines[HEAD:-1], lines[-1].split(" ")
    needed, todo = set(), [int(last)]
    while todo:
        at = todo.pop()
        if at not in needed:
            needed.add(at)
            todo += map(int, re.findall(r"(?<= )\d+", lines[at]))
    kept, numbers, scope, shown = [], {}, "put", "put"
    for at, line in enumerate(lines):
        scope = line if line.startswith("put") else scope
        if at not in needed:
            continue
        kept += [scope] if scope != shown else []
        shown, numbers[at] = scope, len(kept)
        kept.append(re.sub(r"(?<= )\d+", lambda found: str(numbers[int(found[0])]), line))
    return "\n".join([*head, *kept, f"{claim} {numbers[int(last)]}"]) + "\n"


def after_each(puzzle, first):
    """The cells that win, each with its certificate, and White's certificates; None if too many win. `first` wins."""
    wins, losses, lost = {}, [], set()
    for cell in [first, *(cell for cell in puzzle.empty if cell != first)]:
        if cell in lost:
            continue
        winner, text = solved(puzzle, cell)
        if winner == "black":
            wins[cell] = text and shortened(text)
            if len(wins) > MOST_WINS or not text:
                return None
        else:
            losses.append(shortened(text))
            lost |= {cell, *(other for other in puzzle.empty if not names_cell(losses[-1], other))}
    return wins, losses


def enough(puzzle, losing, texts):
    """Of White's certificates as few as serve for all losing cells: that which serves for most comes first."""
    serves = {text: {cell for cell in losing if not names_cell(text, cell)} for text in texts}
    kept, left = [], set(losing)
    while left:
        text = max(texts, key=lambda text: len(serves[text] & left))
        kept.append(text)
        left -= serves[text]
    return kept


def least_budget(puzzle):
    """The positions that `hexd solve` enters to decide a puzzle."""
    too_few, least = 0, BUDGET
    while least - too_few > 1:
        # Most need few: the budget is doubled until it is enough.
        tried = min(2 * too_few or 1, (too_few + least) // 2)
        try:
            solved(puzzle, budget=tried)
            least = tried
        except Unsolved:
            too_few = tried
    return least


def grade_of(positions):
    return GRADES[0] if positions <= EASY else GRADES[1] if positions <= MEDIUM else GRADES[2]


def puzzle_in(size, stones, game, wanted):
    """The puzzle of a position, with its grade for a name, and its certificates; None if it is none of a grade that is
    wanted, or an easy one in which more than one cell wins."""
    black, white = (in_order(of, size) for of in stones)
    puzzle = Puzzle("", size, black, white, (), 0, game)
    if (missing(puzzle) or 0) < LEAST_MISSING:
        return None
    winner, text = solved(puzzle)
    positions = least_budget(puzzle) if winner == "black" else 0
    grade = grade_of(positions)
    found = after_each(puzzle, winning_move(text)) if positions and grade in wanted else None
    if not found or grade == GRADES[0] and len(found[0]) > 1:
        return None
    wins, losses = found
    losing = [cell for cell in puzzle.empty if cell not in wins]
    texts = [*wins.values(), *enough(puzzle, losing, losses)]
    return puzzle._replace(name=grade, wins=in_order(wins, size), positions=positions), texts
