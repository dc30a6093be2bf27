#!/usr/bin/env python3
"""A second checker of Hex certificates, which goes by docs/use/CERTIFICATES.md: tools/second_checker.py <FILE

It shares nothing with hexd, and answers and ends as `hexd check` does: with status 0 after `yes full` or `yes semi`,
and else with status 1. Cells and edges are places: place k is the cell with number k, and the two places after the
cells are the player's first and second edge. A set of places is an integer, whose bit k stands for place k."""
import re
import sys
from collections import namedtuple
from functools import reduce
from operator import and_, or_

MOST_LINES = {"1": 200_000, "2": 200_000, "3": 200_000, "4": 1_000_000}
NUMBER, CELL, END = " (0|[1-9][0-9]{0,5})", " [a-k][0-9]+", " ([a-k][0-9]+|edge[12])"
FORMS = {"1": f"adj{END}{END}|(and|key|or){NUMBER}{NUMBER}|or{NUMBER}{NUMBER}{NUMBER}|(full|semi){NUMBER}"}
FORMS["2"] = f"{FORMS['1']}|put({CELL})*|done|move{CELL}{NUMBER}|cases({NUMBER}){{2,127}}"
FORMS["3"] = f"{FORMS['2']}|or({NUMBER}){{2,127}}"
FORMS["4"] = f"{FORMS['3']}|lift{NUMBER}"
# What a line gives; the pair has its elements, each of them the set of its places.
Entry = namedtuple("Entry", "kind pair carrier scope")

class Refusal(Exception):
    """Why a text is no certificate."""

def set_of(places):
    return reduce(or_, (1 << place for place in places), 0)

def members(places):
    return [place for place in range(places.bit_length()) if places >> place & 1]

def read(data):
    """Size, player, the stones of both, and the lines (name, places, numbers), with the claim as the last one."""
    texts = data.decode("latin-1").split("\n")
    def match(at, form):
        found = re.fullmatch(form, texts[at - 1]) if at < len(texts) else None  # the last text has no line feed
        if not found:
            raise Refusal(f"not a certificate at line {at}")
        return found
    version, size = match(1, "hexcert (1|2|3|4)")[1], int(match(2, "size ([1-9]|10|11)")[1])
    player = match(3, "player (black|white)")[1]
    named = {"abcdefghijk"[k % size] + str(k // size + 1): k for k in range(size**2)}
    named |= {"edge1": size**2, "edge2": size**2 + 1}
    def line(at, form, taken=0):
        name, *words = match(at, form)[0].split(" ")
        places = [named.get(word, -1) for word in words if not word.isdigit()]
        rise = name not in ("black", "white", "put") or places == sorted(set(places))
        if -1 in places or not rise or set_of(places) & taken:
            raise Refusal(f"not a certificate at line {at}")
        return name, places, [int(word) for word in words if word.isdigit()]
    black = set_of(line(4, f"black({CELL})*")[1])
    white = set_of(line(5, f"white({CELL})*", black)[1])
    lines = []
    while not lines or lines[-1][0] not in ("full", "semi"):
        if len(lines) > MOST_LINES[version]:
            raise Refusal("too many lines")
        lines.append(line(6 + len(lines), FORMS[version]))
    if texts[5 + len(lines):] != [""]:
        raise Refusal(f"not a certificate at line {6 + len(lines)}")
    return size, player, (black, white), lines

def neighbours(size, player):
    """For each place the places that it is linked with if the player has both."""
    where = {(k % size, k // size): k for k in range(size**2)}
    steps = ((-1, 0), (1, 0), (0, -1), (0, 1), (1, -1), (-1, 1))
    near = [{where[x + p, y + q] for p, q in steps if (x + p, y + q) in where} for x, y in where]
    for edge, last in enumerate((0, size - 1)):
        on_it = {k for at, k in where.items() if at[player == "black"] == last}
        near = [places | {size**2 + edge} if k in on_it else places for k, places in enumerate(near)] + [on_it]
    return [set_of(places) for places in near]

class Board:
    """The player's elements on the board of a scope, on which these places are his own."""
    def __init__(self, near, own):
        self.near, self.own, self.elements = near, own, {}
        self.edges = frozenset((self.element(len(near) - 2), self.element(len(near) - 1)))

    def element(self, place):
        if place not in self.elements:
            element, todo = 1 << place, members(1 << place & self.own)
            while todo:
                fresh = self.near[todo.pop()] & self.own & ~element
                element, todo = element | fresh, todo + members(fresh)
            self.elements[place] = element
        return self.elements[place]

class Checker:
    """The player's places and the opponent's on the certificate's board, the scope, and what each line so far gave."""
    def __init__(self, size, player, stones):
        self.near, self.other = neighbours(size, player), stones[player == "black"]
        self.own = stones[player == "white"] | 3 << size**2
        self.scope, self.given, self.boards = 0, [], {}

    def board(self, scope):
        return self.boards.get(scope) or self.boards.setdefault(scope, Board(self.near, self.own | scope))

    def rows(self, name, places, entries, kind, scope):
        """The rows of the table, each with its number and whether it applies to a line that takes entries of this kind
        and scope. A row is looked at if none before it applies."""
        board, taken, pairs = self.board(self.scope), set_of(places), [e and e.pair for e in entries]
        yield 1, any(e is None or e.kind != kind and name != "lift" for e in entries)
        yield 1, name in ("and", "key", "or") and any(len(pair) == 1 for pair in pairs)
        yield 11, name in ("put", "move") and taken & (self.other | (self.own if name == "put" else board.own))
        yield 12, any(e.scope & ~scope if name == "lift" else e.scope != scope for e in entries)
        if name == "adj":
            yield 2, taken & self.other
            x, y = map(board.element, places)
            yield 3, x == y or not any(self.near[place] & y for place in members(x))
        if name in ("and", "key"):
            (p, q), (a, b), shared = pairs, (e.carrier for e in entries), pairs[0] & pairs[1]
            yield 4, len(shared) != 1
            yield 5, a & b
            yield 6, any(x & b for x in p - shared) or any(y & a for y in q - shared)
            yield 7, any(u & board.own for u in shared) == (name == "key")
        yield 8, name == "or" and len(set(pairs)) > 1
        yield 9, name in ("or", "cases") and reduce(and_, (e.carrier for e in entries))
        on_edges = all(e.pair == self.board(e.scope).edges for e in entries)
        yield 10, name in ("move", "cases", "full", "semi") and not on_edges
        yield 13, name == "done" and len(board.edges) > 1

    def entry(self, name, places, entries):
        """What a line gives against which there is no reason; `put` gives nothing and changes the scope."""
        if name == "put":
            self.scope = set_of(places)
            return None
        board, pairs = self.board(self.scope), [e.pair for e in entries]
        if name == "lift":
            holders = frozenset(board.element((x & -x).bit_length() - 1) for x in pairs[0])
            return Entry(entries[0].kind, holders, entries[0].carrier & ~self.scope, self.scope)
        cell = min(pairs[0] & pairs[1]) if name == "key" else set_of(places) if name == "move" else 0
        pair = frozenset(map(board.element, places)) if name == "adj" else pairs[0] if name == "or" else board.edges
        pair = pairs[0] ^ pairs[1] if name in ("and", "key") else pair
        carrier = reduce(or_, (e.carrier for e in entries), cell)
        return Entry("semi" if name in ("key", "move") else "full", pair, carrier, self.scope)

    def reason_against(self, name, places, numbers):
        """The first number that applies to the next line, or 0: then it is taken in."""
        entries = [self.given[i] if i < len(self.given) else None for i in numbers]
        kind = name if name in ("full", "semi") else "semi" if name in ("or", "cases") else "full"
        scope = 0 if name == kind else self.scope | set_of(places) if name == "move" else self.scope
        why = next((number for number, applies in self.rows(name, places, entries, kind, scope) if applies), 0)
        self.given += [] if why or name == kind else [self.entry(name, places, entries)]
        return why

def answer(data):
    try:
        size, player, stones, lines = read(data)
    except Refusal as refusal:
        return str(refusal)
    checker = Checker(size, player, stones)
    found = ((at, checker.reason_against(*line)) for at, line in enumerate(lines))
    return next((f"no {at} {why}" for at, why in found if why), f"yes {lines[-1][0]}")

if __name__ == "__main__":
    if sys.argv[1:]:
        sys.exit("usage: second_checker.py <FILE")
    print(said := answer(sys.stdin.buffer.read()))
    sys.exit(not said.startswith("yes"))
