"""The commands of bin/hexd-gtp on the game, by what hexd answers: moves, records, and who has won."""

import os
import re
import stat

from engine import Refused
from forms import COLOURS, LARGEST_COUNT, OTHER, is_colour, is_number, needs
from loading import load_other
from moves import SWAP, Mover

WINS = {b"black": b"B+", b"white": b"W+"}
# If one of these succeeds, the game goes on, and no player has resigned; with some another one begins.
CHANGES = (b"boardsize", b"clear_board", b"genmove", b"loadsgf", b"play")
BEGINS = (b"boardsize", b"clear_board")


def open_regular(name, flags):
    """Opens a file to write it; a pipe or a device could keep the session waiting."""
    file = os.open(name, flags | os.O_NONBLOCK, 0o666)
    if not stat.S_ISREG(os.fstat(file).st_mode):
        os.close(file)
        raise OSError
    return file


class Game(Mover):
    """hexd, and who has resigned. Each command answers the text of its success, or None if the line is hexd's."""

    resigned = None

    def changed(self, name):
        """After a command of this name that has succeeded the game goes on, or another one begins."""
        if name in CHANGES:
            self.resigned = None
        if name in BEGINS:
            self.begin_game()
        if name == b"genmove":
            self.hexd.made += 1

    def is_over(self):
        return self.resigned is not None or self.hexd.ask(b"winner") != b"none"

    def to_move(self):
        """Who didn't make the last step; Black in the beginning."""
        steps = re.findall(rb";([BW])\[", self.hexd.ask(b"printsgf"))
        return OTHER[steps[-1]] if steps else b"B"

    def genmove(self, request):
        """A move by the strength or the clock, or a swap, an opening near even, or `resign`."""
        if len(request.args) != 1 or not is_colour(request.args[0]) or self.is_over():
            return None
        colour = COLOURS[request.args[0].lower()]
        move = self.moved(colour)
        if self.is_by_search and self.gives_up(move):
            self.hexd.ask(b"undo")
            self.resigned = colour
            return b"resign"
        self.has_moved(colour)
        return move

    def reg_genmove(self, request):
        """A genmove that is taken back."""
        needs(len(request.args) == 1 and is_colour(request.args[0]))
        move, resigned = self.genmove(request), self.resigned
        if move is None:
            move = self.hexd.ask(b"genmove %s" % request.args[0])
        self.resigned = resigned if move != b"resign" else None
        if move != b"resign":
            self.hexd.ask(b"undo")
        return move

    def play(self, request):
        """A swap by its short name, and `resign`, of which hexd's game knows nothing."""
        if len(request.args) != 2 or not is_colour(request.args[0]):
            return None
        colour, move = COLOURS[request.args[0].lower()], request.args[1].lower()
        if move == b"swap":
            self.hexd.ask(b"play %s %s" % (colour, SWAP))
            self.resigned = None
            return b""
        if move != b"resign":
            return None
        if self.is_over():
            raise Refused(b"illegal move")
        self.resigned = colour
        return b""

    def undo(self, request):
        """A `resign` is taken back before any stone is; with a number so many steps are."""
        needs(not request.args or len(request.args) == 1 and is_number(request.args[0], LARGEST_COUNT))
        if not request.args and not self.resigned:
            return None
        wanted = int(request.args[0]) if request.args else 1
        of_game = wanted - (1 if wanted and self.resigned else 0)
        if of_game > self.steps():
            raise Refused(b"cannot undo")
        if wanted:
            self.resigned = None
        self.take_back(of_game)
        return b""

    def steps(self):
        """How many steps the game has: the first node of its record is the start, and each other is one."""
        return self.hexd.ask(b"printsgf").count(b";") - 1

    def take_back(self, steps):
        for _ in range(steps):
            self.hexd.ask(b"undo")

    def play_sequence(self, request):
        """Plays moves, each behind its colour: all of them, or none."""
        moves = self.pairs_of(request.args)
        last = self.resigned
        for at, (colour, move) in enumerate(moves):
            try:
                self.hexd.ask(b"play %s %s" % (colour, SWAP if move.lower() == b"swap" else move))
            except Refused:
                self.take_back(at)
                self.resigned = last
                raise
            self.resigned = None
        return b""

    def pairs_of(self, args):
        """Colours, each with what stands behind it."""
        needs(len(args) % 2 == 0 and all(map(is_colour, args[::2])))
        return [(COLOURS[colour.lower()], cell) for colour, cell in zip(args[::2], args[1::2])]

    def is_legal(self, request):
        """Whether a player may make a move, which is taken back at once: 1 or 0."""
        needs(len(request.args) == 2)
        [(colour, move)] = self.pairs_of(request.args)
        try:
            self.hexd.ask(b"play %s %s" % (colour, SWAP if move.lower() == b"swap" else move))
        except Refused as refused:
            if refused.args[0] != b"illegal move":
                raise
            return b"0"
        self.hexd.ask(b"undo")
        return b"0" if self.resigned else b"1"

    def set_position(self, request):
        """Stones on the empty board, without a history."""
        stones = self.pairs_of(request.args)
        needs(all(re.fullmatch(rb"[A-Za-z][1-9][0-9]?", cell) for _, cell in stones))
        self.learn_size()
        lists = {colour: b"".join(b"[%s]" % cell.lower() for of, cell in stones if of == colour) for colour in OTHER}
        record = b"(;FF[4]GM[11]SZ[%d]" % self.size
        record += b"".join(b"A%s%s" % (colour, cells) for colour, cells in lists.items() if cells) + b")"
        try:
            self.hexd.load_text(record)
        except Refused:
            raise Refused(b"illegal position") from None
        self.changed(b"loadsgf")
        return b""

    def savesgf(self, request):
        """Writes the record of the game to a file, in place of what was in it."""
        needs(bool(request.args))
        try:
            record = self.hexd.ask(b"printsgf") + b"\n"
            with open(request.rest, "wb", opener=open_regular) as file:
                file.write(record)
        except OSError:
            raise Refused(b"cannot write file") from None
        return b""

    def loadsgf(self, request):
        """hexd takes a name without a space, and its own form: with spaces it gets the number of an open file, and a record
        of another form it gets in its own. With a move's number the position before that move is left."""
        if not request.args:
            return None
        name, move = request.rest, None
        found = re.fullmatch(rb"(.*\S)\s+([0-9]{1,10})", name)
        if found and not os.path.lexists(name):
            name, move = found[1], int(found[2])
        last = self.hexd.ask(b"printsgf")
        self.load_file(name)
        if move is not None:
            self.go_before(move, last)
        self.changed(request.name)
        return b""

    def go_before(self, move, last):
        """Leaves the position before a move of the game, or behind the last one; the last game stays if there is no such move."""
        steps = self.steps()
        if not 1 <= move <= steps + 1:
            self.hexd.load_text(last)
            moves = b"its moves are 1 to %d" % steps if steps else b"it has none"
            raise Refused(b"cannot load file: it has no move %d: %s" % (move, moves))
        self.take_back(steps + 1 - move)

    def load_file(self, name):
        try:
            # By its path alone: hexd looks first whether it is a regular file, and opens no other.
            file = os.open(name, os.O_PATH)
        except FileNotFoundError:
            raise Refused(b"cannot load file") from None
        except OSError:
            raise Refused(b"read fault") from None
        try:
            self.hexd.load(file)
        except Refused as refused:
            if refused.args[0] != b"cannot load file":
                raise
            load_other(self, file)
        finally:
            os.close(file)

    def final_score(self, request):
        needs(not request.args)
        if self.resigned:
            return OTHER[self.resigned] + b"+R"
        winner = self.hexd.ask(b"winner")
        if winner not in WINS:
            raise Refused(b"cannot score")
        return WINS[winner]

    def all_legal_moves(self, request):
        """The empty cells in rising order, and the swap if White may."""
        needs(not request.args or len(request.args) == 1 and is_colour(request.args[0]))
        if self.is_over():
            return b""
        moves = []
        for line in self.hexd.ask(b"showboard").splitlines()[2:]:
            row, *cells = line.split()
            moves += [b"%c%s" % (ord("a") + column, row) for column, cell in enumerate(cells) if cell == b"."]
        if COLOURS[(request.args or [b"w"])[0].lower()] == b"W" and self.may_swap():
            moves.append(SWAP)
        return b" ".join(moves)
