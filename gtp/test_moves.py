"""How the filter moves: strengths and clocks over a stand-in for hexd and for the time, swaps, openings and resignations over
the built program. gtp/test.py runs these."""

import os
import re
import subprocess
import sys
from pathlib import Path

ROOT = Path(__file__).resolve().parent.parent
sys.path[1:1] = [str(ROOT / "tools"), str(ROOT / "board")]
import settings
from clock import LAG
from commands import Session
from engine import Refused, Request, TooLate
from words import Words

TABLE = settings.TABLE
# What a start costs, in seconds; and how much is a large search.
START, LARGE = 0.02, 500
LIMIT = 120


class Process:
    """What a stand-in has for one: it has taken the processor's time of the test."""

    pid = os.getpid()

    def kill(self):
        pass


class Standin:
    """In the place of hexd: it plays cells in turn, and a genmove takes as long as its options say, by a clock that counts."""

    process = Process()

    def __init__(self, table, words):
        self.table, self.words = table, dict(word[2:].split("=") for word in words)
        self.cells, self.size = [], int(self.words.get("size", 11))
        table.time += START

    def cost(self):
        """How long a search takes: nodes of the look-ahead cost most, and less on a board that fills."""
        given = {name: int(self.words[name]) for name in ("look", "solve", "playouts")}
        units = given["look"] + given["solve"] / 100 + given["playouts"] / 500
        dearer = self.table.dearer if units > LARGE else 1
        return self.table.speed * dearer * units * (1 - len(self.cells) / self.size**2)

    def ask(self, command, limit=None):
        name, *args = command.split()
        if name == b"genmove":
            took = self.cost()
            self.table.time += took if limit is None else min(took, limit)
            self.table.asked.append(self.words)
            if limit is not None and took > limit:
                raise TooLate
            self.cells.append(args[0])
            return b"a1"
        if name in (b"boardsize", b"clear_board"):
            self.size, self.cells = int(args[0]) if args else self.size, []
        if name == b"undo":
            self.cells.pop()
        if name == b"play":
            self.cells.append(args[0])
        if name == b"showboard":
            filled = len(self.cells)
            cells = ["B"] * filled + ["."] * (self.size**2 - filled)
            rows = [" ".join(cells[row * self.size : (row + 1) * self.size]) for row in range(self.size)]
            return "\n".join(["", "head", *rows]).encode()
        said = {
            b"winner": b"none",
            b"printsgf": b"(;SZ[%d]" % self.size + b";B[a1]" * len(self.cells),
            b"mustplay": b"lost no",
            b"look-report": b"nodes %s" % self.words.get("look", "0").encode(),
        }
        return said.get(name, b"")

    def tell(self, command):
        return self.ask(command)

    def load_text(self, record):
        self.size, self.cells = int(re.search(rb"SZ\[(\d+)\]", record)[1]), [b"b"] * record.count(b";B")

    def greet(self):
        pass

    def close(self):
        pass


class Table(Session):
    """A session over stand-ins, at which the time is a number."""

    def __init__(self, *words, speed=1e-4):
        self.time, self.speed, self.asked, self.starts = 0.0, speed, [], 0
        # So many times as much a large search costs a node.
        self.dearer = 1
        super().__init__(Words.of(words), now=lambda: self.time)

    def started(self, options):
        self.starts += 1
        return Standin(self, self.words.of_hexd(options))

    def do(self, line):
        name, _, rest = line.partition(" ")
        return getattr(self, name.replace("-", "_"))(Request(b"", name.encode(), rest.encode()))

    def begin(self, size):
        """A game on this size, as a driver begins one."""
        self.hexd.ask(b"boardsize %d" % size)
        self.changed(b"boardsize")


def quietly(use):
    """What is written on standard error meanwhile."""
    reader, writer = os.pipe()
    kept = os.dup(2)
    os.dup2(writer, 2)
    try:
        use()
    finally:
        os.dup2(kept, 2)
        os.close(writer)
        os.close(kept)
    with open(reader, "rb") as text:
        return text.read()


# How a driver says how much time there is: main time, and behind it periods of so many seconds for so many moves each.
CLOCKS = [
    ("time_settings 1800 0 0", 1800, 0, 1),
    ("time_settings 600 0 0", 600, 0, 1),
    ("time_settings 60.5 0 0", 60.5, 0, 1),
    ("time_settings 5 0 0", 5, 0, 1),
    ("time_settings 0 30 10", 0, 30, 10),
    ("time_settings 30 5.0 1", 30, 5, 1),
    ("kgs-time_settings absolute 300", 300, 0, 1),
    ("kgs-time_settings byoyomi 60 5 3", 60, 5, 1),
    ("kgs-time_settings canadian 20 60 20", 20, 60, 20),
]
# Seconds for a node of the look-ahead.
SPEEDS = (1e-7, 1e-5, 1e-4, 1e-3, 5e-3, 0.1)
# Before these of a player's moves the machine grows so many times slower.
SLOWER, SLOWS = 4, (0, 1, 2, 5, 11, 19, 29, 40, 59)


def game_by(table, size, line, moves, slows=()):
    """What each of a player's moves had for its share, and how long it took, in a game by a clock whose driver says no more."""
    table.begin(size)
    table.do(line)
    took = []
    for number in range(moves):
        table.speed *= SLOWER if number in slows else 1
        share, began = table.clock.share(b"B", size**2, table.learn_size()), table.time
        table.do("genmove b")
        took.append((share, table.time - began))
        table.hexd.cells.append(b"w")
    return took


def clock_faults():
    """By a clock no time is lost, from the first move on, however fast the machine is; and most of it is used."""
    for line, main, period, moves in CLOCKS:
        for speed in SPEEDS:
            for size in (5, 9, 11):
                table = Table("--swap=off", speed=speed)
                took = []
                told = quietly(lambda: took.extend(game_by(table, size, line, size * size // 2)))
                where = f"{line}, size {size}, {speed} s a node"
                # A node and a start are the least that a move takes.
                if speed <= 5e-3 and not holds([seconds for _, seconds in took], main, period, moves):
                    yield f"{where}: {[round(seconds, 2) for _, seconds in took]}"
                yield from (f"{where}: {fault}" for fault in game_faults(took, speed))
                yield from (f"{where}: {fault}" for fault in asked_faults(table.asked, size))
                if told.count(b"can't be repeated") != 1:
                    yield f"{line}: it says {told}"


def game_faults(took, speed):
    """What is wrong with the times of a game's moves on a machine that keeps its speed."""
    least = START + LAG + 2 * speed
    for number, (share, seconds) in enumerate(took):
        if seconds > 1.1 * max(share, least):
            yield f"move {number} takes {seconds:.2f} of {share:.2f}"


def asked_faults(asked, size):
    """What is wrong with the options that hexd was asked for."""
    quick = settings.strength_options("quick", size)
    asked = [(name, int(words[name])) for words in asked for name in ("look", "solve", "playouts")]
    # What a strength has none of stays none.
    numbers = [number for name, number in asked if quick[name] or number]
    if not 1 <= min(numbers) <= max(numbers) <= 1_000_000 or {name for name, number in asked if number and not quick[name]}:
        yield f"it asks for {min(numbers)} to {max(numbers)}"


def use_faults():
    """As long as hexd could use more of it, four fifths of the time are used in thirty moves, and most of it in the first."""
    for line, main in (("time_settings 1800 0 0", 1800), ("time_settings 60 0 0", 60), ("kgs-time_settings absolute 20", 20)):
        for speed in (1e-4, 1e-3, 5e-3):
            table, took = Table("--swap=off", speed=speed), []
            if 1_000_000 * speed < main:
                continue
            quietly(lambda: took.extend(game_by(table, 11, line, 30)))
            used = [seconds for _, seconds in took]
            if not 0.8 * main <= sum(used) <= main or sum(used[:10]) < 1.2 * sum(used[10:20]):
                yield f"{line}, {speed} s a node: of {main} s {sum(used)} are used: {used}"
    # Each move's own time is used too, from the first on.
    table, took = Table("--swap=off", "--seconds=60", speed=1e-3), []
    quietly(lambda: took.extend(game_by(table, 11, "time_settings 0 60 1", 12)))
    used = [seconds for _, seconds in took]
    if not 48 <= min(used) <= max(used) <= 66:
        yield f"of a minute a move are used {used}"
    # Small searches say little of a large one: the first move must not take them at their word.
    table = Table("--swap=off", speed=1e-3)
    table.dearer = 2
    quietly(lambda: took.extend(game_by(table, 11, "time_settings 1800 0 0", 1)))
    if took[-1][1] > 1.1 * took[-1][0]:
        yield f"of {took[-1][0]} s the first move uses {took[-1][1]}"


def slow_faults():
    """No time is lost if the machine grows slower between two moves."""
    for line, main, period, moves in CLOCKS:
        for speed in (1e-4, 1e-3):
            for slow in SLOWS:
                table, took = Table("--swap=off", speed=speed), []
                quietly(lambda: took.extend(game_by(table, 11, line, 60, (slow,))))
                if not holds([seconds for _, seconds in took], main, period, moves):
                    yield f"{line}, {speed} s a node, slower at move {slow}: {[round(seconds, 2) for _, seconds in took]}"


def holds(took, main, period, moves):
    """Whether a referee lets the game go on to its end: a period that is used up before its moves are made loses."""
    left, due = main, 0
    for seconds in took:
        left -= seconds
        if left < 0 and not due and period:
            # The main time ends within this move, and the first period begins.
            left, due = left + period, moves
        if left < 0:
            return False
        if due:
            due -= 1
            if not due:
                left, due = period, moves
    return True


def asked_by(table, *lines):
    """What the genmoves among these lines ask hexd for."""
    quietly(lambda: [table.do(line) if line[0] != "!" else table.hexd.ask(line[1:].encode()) for line in lines])
    return [{name: words.get(name) for name in ("weight", "playouts", "look", "solve")} for words in table.asked]


def strength_faults():
    """What hexd is asked for, by the filter's words and by the size of the board."""

    def given(name, size):
        return {name: f"{value}" for name, value in settings.strength_options(name, size).items()}

    for words, lines, want in (
        ([], ["genmove b", "!boardsize 5", "genmove w"], [given("normal", 11), given("normal", 5)]),
        (["--strength=strong"], ["genmove b"], [given("strong", 11)]),
        (["--strength", "quick", "--look", "7"], ["genmove b"], [{**given("quick", 11), "look": "7"}]),
        (["--seed", "5", "--size", "6"], ["genmove b"], [given("normal", 6)]),
        # Without a limit a clock changes nothing, and who is told so no longer has one.
        ([], ["time_settings 0 0 0", "genmove b"], [given("normal", 11)]),
        ([], ["time_settings 9 1 0", "genmove b"], [given("normal", 11)]),
        ([], ["time_settings 9 0 0", "kgs-time_settings none", "genmove b"], [given("normal", 11)]),
        # The file of --trace would be emptied by another hexd.
        (["--trace=t"], ["!boardsize 5", "genmove b"], [given("normal", 11)]),
    ):
        got = asked_by(Table("--swap=off", *words), *lines)[-len(want) :]
        if got != want:
            yield f"{words}, {lines}: it asks for {got} in place of {want}"
    table = Table("--swap=off", "--playouts=9")
    table.hexd.cost = lambda: 0
    if asked_by(table, "time_settings 9 0 0", "genmove b") != [{"playouts": "9", "weight": None, "look": None, "solve": None}]:
        yield f"numbers of the user's own: {table.asked}"
    try:
        Table("--trace=t").do("time_settings 9 0 0")
        yield "a clock beside --trace is taken"
    except Refused as why:
        if why.args[0] != b"cannot keep time beside --trace":
            yield f"a clock beside --trace: {why}"


def pace_faults():
    """A clock that a driver tells of is his; a new game begins with all of its time; one hexd serves as long as it fits."""
    table, took = Table("--swap=off", speed=1e-4), []
    quietly(lambda: took.extend(game_by(table, 11, "time_settings 1000 0 0", 6)))
    if table.starts > 14:
        yield f"6 moves take {table.starts} starts"
    table.do("time_left b 0.75 0")
    began = table.time
    table.do("genmove b")
    if not 0 < table.time - began < 0.2:
        yield f"with less than a second left a move takes {table.time - began}"
    starts = table.starts
    table.changed(b"clear_board")
    if table.clock.left[b"B"].main != 1000 or table.starts != starts:
        yield f"a new game begins with {table.clock.left}, and {table.starts - starts} starts"
    table.begin(9)
    if table.starts == starts:
        yield "nothing is measured on a new size"
    # Periods: the driver says that there are 2 seconds for 4 moves.
    table.do("time_settings 0 10 5")
    table.do("time_left b 2.0 4")
    if not 0.4 < table.clock.allowed(b"B", 121, 100).seconds < 0.5:
        yield f"2 seconds for 4 moves: {table.clock.allowed(b'B', 121, 100)}"


def late_faults():
    """A search that would last beyond the flag is ended, and the trial's move is played."""
    table = Table("--swap=off", speed=1e-3)
    quietly(lambda: table.do("time_settings 0 10 1"))
    costs, own = iter([1.5, 1000]), Standin.cost
    Standin.cost = lambda standin: next(costs)
    try:
        quietly(lambda: table.do("genmove b"))
    finally:
        Standin.cost = own
    if len(table.hexd.cells) != 1 or not 1.5 < table.time < 10 + 1:
        yield f"a search without end: {table.hexd.cells}, after {table.time} s"


# Sessions with the built program: the filter's words, the lines, and what the last line is answered.
SMALL = ["--size", "5", "--playouts", "300"]
BEHIND = ["--size=9", "--swap=off", "--look=50", "--playouts=10"]
LINES = [
    (SMALL, "genmove b", settings.TABLE["even"]["5"]),
    ([*SMALL, "--swap", "off"], "genmove b;printsgf", "(;FF[4]GM[11]SZ[5];B[c3])"),
    (["--size=2", "--playouts=50"], "genmove b;printsgf", "(;FF[4]GM[11]SZ[2];B[a2])"),
    # Certificates of openings/ say who wins: c3 does, and a1 doesn't.
    (SMALL, "play b c3;genmove w;printsgf", "(;FF[4]GM[11]SZ[5];B[c3];W[swap-pieces])"),
    (SMALL, "play b c3;reg_genmove w", "swap-pieces"),
    (SMALL, "play b c3;reg_genmove w;printsgf", "(;FF[4]GM[11]SZ[5];B[c3])"),
    ([*SMALL, "--swap=off"], "play b c3;genmove w;play b a1;undo;undo;play w swap-pieces", ""),
    # By the search White is likelier to lose with his best answer to a2, but a certificate says that he wins.
    (["--size=5", "--playouts=200", "--weight=0"], "play b a2;genmove w", "d3"),
    # Without a certificate the search says so.
    (["--size=8", "--playouts=5000", "--weight=0"], "play b d5;genmove w", "swap-pieces"),
    (["--size=8", "--playouts=5000", "--weight=0"], "play b d5;reg_genmove w;printsgf", "(;FF[4]GM[11]SZ[8];B[d5])"),
    # One playout says nothing, and the guess of this opening that White is likelier to win.
    (["--size=8", "--playouts=1", "--weight=0"], "play b a1;genmove w;play b a1", "illegal move"),
    # A swap would leave b1.
    (["--size=8", "--playouts=5000", "--weight=0"], "play b b1;genmove w;play b b1", "illegal move"),
    # With two stones there is no swap, nor where the first was White's.
    (SMALL, "play b c3;play w a1;genmove w;undo;printsgf", "(;FF[4]GM[11]SZ[5];B[c3];W[a1])"),
    (["--size=2", "--playouts=9"], "play b a2;genmove w", "swap-pieces"),
    (["--size=2", "--playouts=9", "--swap=off"], "play b a2;genmove w", "a1"),
    (["--size=2", "--playouts=9", "--swap=off", "--resign=0"], "play b a2;genmove w", "resign"),
    (["--size=2", "--playouts=9", "--swap=off", "--resign=0"], "play b a2;genmove w;final_score", "B+R"),
    (["--size=2", "--playouts=9", "--swap=off", "--resign=0"], "play b a2;genmove w;undo;printsgf", "(;FF[4]GM[11]SZ[2];B[a2])"),
    (["--size=2", "--playouts=9", "--swap=off", "--resign=0"], "play b a2;reg_genmove w;final_score", "cannot score"),
    (["--size=2", "--playouts=9", "--resign=0"], "play b a2;genmove w", "swap-pieces"),
    # White's best move has 375 thousandths by the look-ahead, and nothing is proved.
    (BEHIND, "play b e5;play b e3;genmove w", "e4"),
    ([*BEHIND, "--resign", "0"], "play b e5;play b e3;genmove w", "e4"),
    ([*BEHIND, "--resign", "60"], "play b e5;play b e3;genmove w;final_score", "B+R"),
    # A search of an earlier game says nothing of an opening.
    (["--size=3", "--playouts=9", "--resign=0"], "play b b2;play w a1;genmove w;clear_board;genmove b", settings.TABLE["even"]["3"]),
]


def line_faults(program):
    for words, lines, want in LINES:
        given = "\n".join(lines.split(";")) + "\n"
        done = subprocess.run([*program, *words], input=given.encode(), capture_output=True, timeout=LIMIT)
        got = done.stdout.decode().split("\n\n")[-2][2:]
        if (done.returncode, done.stderr, got) != (0, b"", want):
            yield f"{words}, {lines}: {got} in place of {want}, and {done.returncode}, {done.stderr}"


def guess_faults():
    """A guess of Black's first stone stands in place of a search, unless hexd looked at more nodes."""
    nodes, [(opening, worth), *_] = settings.GUESSED["options"]["look"], settings.GUESSED["black"]["11"].items()
    black = f"B[{opening}]"
    for look, played, want in ((nodes, black, 1 - worth / 1_000), (nodes + 1, black, 0.25), (nodes, "W[a2]", 0.25)):
        table = Table("--swap=on")
        said = {b"printsgf": f"(;FF[4]GM[11]SZ[11];{played};W[b9])", b"mustplay": "lost no",
                b"look-report": f"nodes {look}\nb9 {look} 250"}
        table.hexd.ask = lambda line, said=said: said[line].encode()
        got = table.share_without_swap(b"b9")
        if got != want:
            yield f"after {played}, with {look} nodes, White's share is {got} in place of {want}"


def faults(program):
    """All that differs."""
    for part in (guess_faults(), clock_faults(), use_faults(), slow_faults(), late_faults(), strength_faults(), pace_faults(), line_faults(program)):
        yield from part
