"""Records of games (SGF) of whatever program, in the form in which hexd reads them.

    read(b"(;SZ[5];B[C3];W[ce];B[resign])")     # Record: .text, .main, .notes; Refused with why not

What another program writes otherwise is put right here: a byte order mark or other text before the record, other character
sets, capitals, `swap`, cells in two letters (`ce` for c5), passes, stones that are set behind the root, and White as the first
to move where Black swaps. All of the tree is kept, with its properties. This file knows what a move is called, and no rule:
what is legal hexd says. page/records.js does the same for the page; both are tested by tests/table.py.
"""

import re
from dataclasses import dataclass

from sgf import Node, Refused, decoded, printed, shown, tree_of

LETTERS = "abcdefghijk"
SIZES = range(1, len(LETTERS) + 1)
SWAP = "swap-pieces"
COLOURS = {"B": "Black", "W": "White"}
OTHER = {"B": "W", "W": "B"}
# What names a colour: the result, and who is to move.
OF_COLOURS = {"RE", "PL"}
# What sets stones, and what takes them away.
STONES, AWAY = ("AB", "AW"), "AE"
SETTING = (*STONES, AWAY)
# More bytes hexd reads of no file (`loadsgf`), and so many changes are told of one.
MOST_BYTES, MOST_NOTES = 1_048_576, 20
# What belongs to a player, and changes sides with him.
OF_PLAYERS = {"PB": "PW", "PW": "PB", "BR": "WR", "WR": "BR", "BT": "WT", "WT": "BT", "BL": "WL", "WL": "BL"}


@dataclass(frozen=True)
class Record:
    """A record in hexd's form: all of its text, that of its main line alone, its size, what was changed or left out, and whether
    the file had all of it."""

    text: str
    main: str
    size: int
    notes: list
    is_whole: bool


def cell_of(value, crossed):
    """A cell in hexd's form, from `c5` or `ce`; None where it is none."""
    found = re.fullmatch(r"([a-z])([1-9][0-9]?|[a-z])", value.strip().lower())
    if not found:
        return None
    column, row = ord(found[1]) - ord("a"), int(found[2]) - 1 if found[2].isdigit() else ord(found[2]) - ord("a")
    if crossed:
        column, row = row, column
    return f"{chr(ord('a') + column)}{row + 1}" if column < 26 else None


class Start:
    """The stones of the start, while nodes set others and take some away: as often as a record's bytes allow."""

    def __init__(self, properties):
        # Each with its colour and its value, as it was set, and by their cells those that lie.
        self.stones, self.lying, self.count = {}, {}, 0
        for name in STONES:
            for value in properties.get(name, ()):
                self.put(name, value)

    def put(self, name, value):
        self.stones[self.count] = name, value
        self.lying.setdefault(cell_of(value, False), []).append(self.count)
        self.count += 1

    def take(self, value):
        for number in self.lying.pop(cell_of(value, False), ()):
            del self.stones[number]

    def set_up(self, properties):
        """Does what a node does, which has it no longer."""
        for name in SETTING:
            for value in properties.pop(name, ()):
                self.take(value)
                if name != AWAY:
                    self.put(name, value)

    def values(self, name):
        return [value for colour, value in self.stones.values() if colour == name]


class Reader:
    """Puts the nodes of a tree into hexd's form, and notes what it changes."""

    def __init__(self, root):
        self.root, self.notes = root, []
        self.size = self.size_of(root)
        self.crossed = self.white_begins()

    def size_of(self, root):
        game = root.properties.get("GM", ["11"])[0].strip()
        if game != "11":
            raise Refused(f"it is a record of another game than Hex: GM[{shown(game)}]")
        given = root.properties.get("SZ", ["11"])[0].strip()
        found = re.fullmatch(r"([0-9]{1,4})(?::\1)?", given)
        if not found or int(found[1]) not in SIZES:
            raise Refused(f"size {shown(given)}: hexd plays 1 to {SIZES[-1]}")
        return int(found[1])

    def white_begins(self):
        """Whether White has the first move and Black swaps it: then the colours are exchanged, and rows with columns."""
        moves, node = [], self.root
        while len(moves) < 2 and node:
            moves += node.moves()
            node = node.children[0] if node.children else None
        swapped = [name for name, _ in moves[:2]] == ["W", "B"] and moves[1][1].strip().lower() in ("swap", SWAP)
        if swapped:
            self.notes.append("White begins in the record, and Black swaps: colours, and rows with columns, are exchanged.")
        return swapped

    def turn_players(self, properties):
        """The properties with those of the players exchanged."""
        result = {OF_PLAYERS.get(name, name): values for name, values in properties.items()}
        for name in OF_COLOURS & result.keys():
            result[name] = [OTHER.get(value[:1], value[:1]) + value[1:] for value in result[name]]
        return result

    def gather_start(self):
        """Stones that are set or taken away behind the root, before the first move and the first side line, are the start's."""
        start, node = Start(self.root.properties), self.root
        while len(node.children) == 1 and not node.moves():
            node = node.children[0]
            start.set_up(node.properties)
        for name in STONES:
            self.root.properties[name] = start.values(name)

    def convert(self):
        """Puts each node into hexd's form. A side line is left out where it can't be; Refused in the main line."""
        self.gather_start()
        left = [(self.root, 0, True)]
        while left:
            node, number, is_main = left.pop()
            if node.properties:
                number += self.convert_node(node, number + 1)
            kept = []
            for child in node.children:
                try:
                    # A record may have a million nodes without a property.
                    if child.properties:
                        child = self.stones_as_moves(child, number + 1)
                        self.probe(child, number + 1)
                    kept.append((child, number, is_main))
                except Refused as why:
                    if is_main:
                        raise
                    self.notes.append(f"A side line is left out: {why}.")
                is_main = False
            node.children = [child for child, _, _ in kept]
            left += reversed(kept)

    def stones_as_moves(self, node, number):
        """A node that sets stones in the midst of a game as a row of moves, which needn't come in turn, and then the node."""
        if AWAY in node.properties:
            raise Refused(f"stones are taken away at move {number}, which hexd can't do")
        stones = [(name[1], value) for name in STONES for value in node.properties.pop(name, [])]
        if stones:
            self.notes.append(f"Stones are set at move {number}: they are played, one after another.")
        for colour, value in reversed(stones):
            node = Node({colour: [value]}, [node])
        return node

    def probe(self, node, number):
        """Refused where a node can't be put into hexd's form."""
        moves = node.moves()
        if len(moves) > 1:
            raise Refused(f"node {number} has two moves")
        if moves:
            self.move_of(*moves[0], number)

    def move_of(self, name, value, number):
        """The move of a value, in hexd's form; None for a pass."""
        word = value.strip().lower()
        if word in ("", "pass") or word == "tt" and self.size < 20:
            return None
        if word in ("swap", SWAP, "swap-sides", "resign", "forfeit"):
            return SWAP if word == "swap" else word
        cell = cell_of(word, self.crossed)
        if cell is None:
            raise Refused(f"move {number} is no move: {COLOURS[name]} '{shown(value)}'")
        return cell

    def convert_node(self, node, number):
        """Puts one node into hexd's form; 1 where it holds a move."""
        if self.crossed:
            node.properties = self.turn_players(node.properties)
        result, found = {}, node.moves()
        for name, values in node.properties.items():
            if name in ("B", "W"):
                move = self.move_of(name, values[0], number)
                if move is not None and move != "swap-sides":
                    result[OTHER[name] if self.crossed else name] = [move]
                self.note_move(name, move, number)
            elif name in STONES and values:
                result["A" + OTHER[name[1]] if self.crossed else name] = [self.stone_of(value) for value in values]
            elif name not in ("CA", *STONES):
                result[name] = values
        node.properties = result
        return len(found)

    def stone_of(self, value):
        cell = cell_of(value, self.crossed)
        if cell is None:
            raise Refused(f"a stone of the start lies on no cell: '{shown(value)}'")
        return cell

    def note_move(self, name, move, number):
        player = COLOURS[OTHER[name] if self.crossed else name]
        if move is None:
            self.notes.append(f"Move {number} is a pass of {player}'s, which Hex hasn't: it is left out.")
        elif move == "swap-sides":
            self.notes.append(f"Move {number} swaps sides: the stones stay, and the players have changed their colours.")
        elif move in ("resign", "forfeit"):
            self.notes.append(f"{player} resigns at move {number}.")


def main_line(root):
    """A tree of the moves and start stones of the main line alone: all that hexd reads."""
    first = last = Node({name: root.properties[name] for name in ("FF", "GM", "SZ", "AB", "AW") if name in root.properties})
    node = root
    while True:
        for name, value in node.moves():
            if value in ("resign", "forfeit"):
                return first
            last.children.append(Node({name: [value]}))
            last = last.children[0]
        if not node.children:
            return first
        node = node.children[0]


def read(content):
    """The record in the bytes of a file."""
    if len(content) > MOST_BYTES:
        raise Refused(f"it has more than {MOST_BYTES:,} bytes")
    root, trees, is_whole = tree_of(decoded(content))
    reader = Reader(root)
    reader.probe(Node({name: root.properties[name] for name in "BW" if name in root.properties}), 1)
    reader.convert()
    if len(reader.notes) > MOST_NOTES:
        reader.notes[MOST_NOTES:] = [f"Of {len(reader.notes) - MOST_NOTES} changes more nothing is said."]
    if trees > 1:
        reader.notes.append(f"The file has {trees} games; this is the first.")
    if not is_whole:
        reader.notes.append("The file breaks off in the record: what stands before that is opened.")
    head = {"FF": ["4"], "GM": ["11"], "SZ": [str(reader.size)]}
    root.properties = {**head, **{name: values for name, values in root.properties.items() if name not in head}}
    return Record(printed(root), printed(main_line(root)), reader.size, reader.notes, is_whole)


def why_refused(ask, record):
    """Why hexd doesn't load a record: which move it refuses, and why. `ask` gives an answer's text, None of a failure."""
    root, _, _ = tree_of(record.main)
    ask(f"boardsize {record.size}")
    # Stones of the start are played too: hexd takes moves out of turn.
    for colour in COLOURS:
        for cell in root.properties.get(f"A{colour}", []):
            if ask(f"play {colour} {cell}") is None:
                return f"no stone of the start can lie on {cell}, for {why_illegal(ask, cell, record.size)}"
    node, number = root, 0
    while node.children:
        node, number = node.children[0], number + 1
        ((colour, move),) = node.moves()
        if ask(f"play {colour} {move}") is None:
            return f"move {number} is illegal: {COLOURS[colour]} {move}, for {why_illegal(ask, move, record.size)}"
    return "hexd can't play it"


def why_illegal(ask, move, size):
    winner = ask("winner")
    if winner != "none":
        return f"{winner.capitalize()} has won before"
    if move == SWAP:
        return "only White may swap, and only Black's first stone"
    if LETTERS.find(move[0]) not in range(size) or int(move[1:]) > size:
        return f"the board of size {size} has no such cell"
    return "there is a stone on it"
