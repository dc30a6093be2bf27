"""Analysis that streams, in the forms of Leela Zero and KataGo: a hexd of its own looks at the game's position, anew with twice
as many nodes each time, and the game's hexd stays as it is. gtp/filter.py writes its lines until another line comes."""

import os
import re
import time
from dataclasses import dataclass, replace

from engine import Engine, NotStarted, Refused
from programs import HexdEnded

# The nodes of the first look, how many times as many the next one has, and the most that hexd judges.
FIRST, GROWTH, MOST = 25, 2, 1_000_000
# The tree only counts what a look-ahead chose; without one it is all that there is.
PLAYOUTS, PLAYOUTS_A_NODE = 10, 40
POSITIONS_A_NODE = 2
# What hexd is asked of each look, all at once.
QUESTIONS = [b"mustplay", b"look-report", b"search-report"]
CERTAIN = 1_000
# Keys of KataGo's that ask for what hexd hasn't, and change nothing else; each has a value.
IGNORED = {b"minmoves", b"ownership", b"ownershipStdev", b"movesOwnership", b"pvVisits", b"pvEdgeVisits", b"rootInfo"}
DEFAULT_CENTISECONDS = 100
FORMS = {
    b"lz-analyze": "visits {visits} winrate {share:.0f} prior {prior:.0f}",
    b"kata-analyze": "visits {visits} winrate {fraction:.4f} utility {utility:.4f} prior {chance:.4f}",
    b"hexd-analyze": "visits {visits} winrate {share:.0f} prior {prior:.0f}",
}


@dataclass(frozen=True)
class Found:
    """What a look found of a move: the walks by it, how likely its player wins, from 0 to 1, whether that is proved, and the
    line that follows."""

    cell: str
    visits: int
    worth: float
    proved: str = ""
    line: tuple = ()

    def told(self, form, order, prior):
        """The move in a form of lines. Its prior is the part of the first look's walks that went by it, from 0 to 1."""
        numbers = form.format(
            visits=self.visits,
            share=10_000 * self.worth,
            fraction=self.worth,
            utility=2 * self.worth - 1,
            prior=10_000 * prior,
            chance=prior,
        )
        proved = f" proved {self.proved}" if self.proved else ""
        return f"info move {self.cell} {numbers}{proved} order {order} pv {' '.join([self.cell, *self.line])}"


def rows_of(report):
    """The words of each cell's line in a report; none if it is a failure."""
    return [line.split() for line in report.splitlines()[1:]]


def found_in(move, plan, look, search):
    """What hexd's answers say of the moves, the chosen one first, and then by their visits."""
    if plan.startswith("win"):
        return [Found(move, 1, 1.0, "win")]
    found = []
    for cell, visits, number, *more in rows_of(look) or rows_of(search):
        of_walks = look.startswith("nodes")
        worth = int(number) / CERTAIN if of_walks else int(number) / max(1, int(visits))
        proved = {"won": "win", "lost": "loss"}.get("".join(more[:1]), "")
        line = more[more.index("line") + 1 :] if "line" in more else []
        found.append(Found(cell, int(visits), worth, proved, tuple(line)))
    if plan.startswith("lost yes"):
        found = [replace(it, worth=0.0, proved="loss") for it in found]
    return sorted((it for it in found if it.visits), key=lambda it: (it.cell != move, -it.visits))


def priors_of(found):
    """The part of all walks that went by each move."""
    walks = sum(it.visits for it in found)
    return {it.cell: it.visits / walks for it in found}


@dataclass(frozen=True)
class Wanted:
    """What a command asks for: the form of lines, the colour to move, the least seconds between lines, the most moves of one."""

    form: str
    colour: bytes
    seconds: float
    moves: int

    @classmethod
    def of(cls, name, colour, args):
        """From the command's name and what stands behind the colour, as `50`, or `interval 50 maxmoves 10`."""
        args = list(args)
        centiseconds = args.pop(0) if args and args[0].isdigit() else b"%d" % DEFAULT_CENTISECONDS
        values = {b"interval": centiseconds, b"maxmoves": b"121"}
        if len(args) % 2:
            raise Refused(b"syntax error")
        for key, value in zip(args[::2], args[1::2]):
            if key not in values and key not in IGNORED:
                raise Refused(b"syntax error")
            values[key] = value
        if not all(re.fullmatch(rb"[0-9]{1,9}", values[key]) for key in (b"interval", b"maxmoves")) or not int(values[b"maxmoves"]):
            raise Refused(b"syntax error")
        return cls(FORMS[name], colour, int(values[b"interval"]) / 100, int(values[b"maxmoves"]))


class Analysis:
    """The looks at a position. `stream` is where the answers of the one at work come from; None if there is no more to find."""

    def __init__(self, words, wanted, record, now=time.monotonic):
        self.words, self.wanted, self.now = words, wanted, now
        self.file = os.memfd_create("position")
        os.write(self.file, record)
        self.nodes, self.engine, self.answers = FIRST, None, b""
        self.priors = None
        # The last line that isn't written yet, and when one was written.
        self.line, self.written = b"", -self.wanted.seconds
        self.begin()

    def __enter__(self):
        return self

    def __exit__(self, *_):
        self.end()
        os.close(self.file)

    @property
    def stream(self):
        return self.engine and self.engine.process.stdout

    def begin(self):
        """Begins a look. All is asked at once, so that nothing has to be waited for."""
        load = b"loadsgf /proc/%d/fd/%d" % (os.getpid(), self.file)
        try:
            self.engine, self.answers = Engine(self.words.of_analysis(self.options())), b""
            self.engine.send(b"\n".join([load, b"genmove %s" % self.wanted.colour, *QUESTIONS, b""]))
        except (HexdEnded, NotStarted):
            # What was found before stands, and the game's hexd goes on.
            self.end()

    def options(self):
        """hexd's options for this look."""
        playouts = PLAYOUTS if self.words.value("hsearch") != "off" else min(MOST, PLAYOUTS_A_NODE * self.nodes)
        return {"look": self.nodes, "playouts": playouts, "solve": POSITIONS_A_NODE * self.nodes}

    def end(self):
        """Ends the look at work, wherever it is."""
        if self.engine:
            self.engine.process.kill()
            self.engine.close()
            self.engine = None

    def hear(self):
        """Takes what has come of the look at work; once it is whole there is another line, and the next look begins."""
        more = os.read(self.stream.fileno(), 65536)
        self.answers += more
        answers = [answer.partition(" ")[2] for answer in self.answers.decode().split("\n\n")]
        if not more:
            self.end()
        elif len(answers) > 2 + len(QUESTIONS):
            self.take(answers[1:-1])

    def take(self, answers):
        move, plan, look, search = answers
        found = found_in(move, plan, look, search)
        if self.priors is None:
            self.priors = priors_of(found)
        moves = enumerate(found[: self.wanted.moves])
        told = " ".join(it.told(self.wanted.form, order, self.priors.get(it.cell, 0.0)) for order, it in moves)
        self.line = told.encode() + b"\n"
        self.end()
        nodes = int(look.split()[1]) if look.startswith("nodes") else self.nodes
        if plan.startswith("lost no") and nodes >= self.nodes and GROWTH * self.nodes <= MOST:
            self.nodes *= GROWTH
            self.begin()

    def waiting(self):
        """After how many seconds a line is due; None if there is none."""
        return max(0.0, self.written + self.wanted.seconds - self.now()) if self.line else None

    def due(self):
        """The line that is to be written now; nothing if there is none."""
        if not self.line or self.waiting() > 0:
            return b""
        line, self.line, self.written = self.line, b"", self.now()
        return line
