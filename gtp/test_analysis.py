"""Analysis that streams, over the built program: the forms of its lines, what ends it, and what it leaves alone. gtp/test.py
runs these."""

import contextlib
import os
import re
import signal
import subprocess
import sys
import tempfile
from pathlib import Path
from types import SimpleNamespace

ROOT = Path(__file__).resolve().parent.parent
sys.path[1:1] = [str(ROOT / "tools"), str(ROOT / "board")]
from analysis import FORMS, found_in, priors_of
from moves import Mover
from shown import shown_worth

LIMIT = 120
MOVE = {
    "lz-analyze": r"info move [a-g][1-7] visits \d+ winrate \d{1,5} prior \d{1,5}(?: proved (?:win|loss))? order \d+ pv(?: [a-g][1-7])+",
    "kata-analyze": r"info move [a-g][1-7] visits \d+ winrate [01]\.\d{4} utility -?[01]\.\d{4} prior [01]\.\d{4}"
    r"(?: proved (?:win|loss))? order \d+ pv(?: [a-g][1-7])+",
}
MOVE["hexd-analyze"] = MOVE["lz-analyze"]


class Driver:
    """A session of the filter, line by line."""

    def __init__(self, program, *words):
        pipe = subprocess.PIPE
        self.process = subprocess.Popen([*program, *words], stdin=pipe, stdout=pipe, text=True)

    def __enter__(self):
        return self

    def __exit__(self, *_):
        self.process.kill()
        self.process.communicate(timeout=LIMIT)

    def send(self, line):
        # One that has ended has no answer, which tells it.
        with contextlib.suppress(BrokenPipeError):
            self.process.stdin.write(line + "\n")
            self.process.stdin.flush()

    def line(self):
        return self.process.stdout.readline().removesuffix("\n")

    def ask(self, line):
        self.send(line)
        return self.rest()

    def rest(self):
        """What is left of an answer."""
        lines = []
        while line := self.line():
            lines.append(line)
        return "\n".join(lines)

    def children(self):
        return list(map(int, Path(f"/proc/{self.process.pid}/task/{self.process.pid}/children").read_text().split()))


def visits(line):
    return sum(map(int, re.findall(r" visits (\d+)", line)))


def form_faults(program):
    """Each form's lines have moves in order, and more visits each; the next line ends them, and the game is as it was."""
    for name, move in MOVE.items():
        with Driver(program, "--size=7") as driver:
            driver.ask("play b d4")
            driver.send(f"5 {name} w 1")
            head, first, second = driver.line(), driver.line(), driver.line()
            orders = list(map(int, re.findall(r" order (\d+)", second)))
            if head != "=5 " or not all(re.fullmatch(f"{move}(?: {move})*", line) for line in (first, second)):
                yield f"{name}: {head!r}, {first}"
            if not visits(first) < visits(second) or orders != list(range(len(orders))) or len(orders) < 2:
                yield f"{name}: after {first} comes {second}"
            driver.send("8 name")
            driver.rest()
            answers = [driver.rest(), driver.ask("printsgf"), driver.ask("mustplay")]
            if answers != ["=8 hexd", "= (;FF[4]GM[11]SZ[7];B[d4])", "? no search"] or len(driver.children()) != 1:
                yield f"after {name}: {answers}, {driver.children()}"


def end_faults(program):
    """The next line is answered whatever the look does, and the end of the input ends all."""
    with Driver(program, "--size=7") as driver:
        driver.send("lz-analyze b")
        driver.line(), driver.line()
        children = driver.children()
        for child in children[1:]:
            os.kill(child, signal.SIGSTOP)
        driver.send("name")
        driver.rest()
        if driver.rest() != "= hexd" or driver.children() != children[:1]:
            yield f"a look that doesn't end: {driver.children()}"
        driver.send("lz-analyze b")
        driver.line(), driver.line()
        driver.process.stdin.close()
        if driver.process.wait(LIMIT) != 0 or driver.process.stdout.read()[-1:] != "\n":
            yield f"the end of the input: {driver.process.returncode}"
        driver.process.stdin = None


# Sessions: the filter's words, lines before the last one, which analyzes, and what its first line has to be.
FOUND = [
    # Each of White's moves loses, and White is to move.
    (["--size=2"], ["play b a2"], "hexd-analyze", r"(info move \w+ visits \d+ winrate 0 prior \d+ proved loss order \d pv(?: [ab][12])+ ?){3}"),
    (["--size=2"], ["play b a2"], "kata-analyze B 1", r"info move [ab]1 visits 1 winrate 1\.0000 utility 1\.0000 prior 1\.0000 proved win order 0 pv [ab]1"),
    (["--size=2"], [], "lz-analyze interval 1", r"info move \w\d visits 1 winrate 10000 prior 10000 proved win order 0 pv \w\d"),
    (["--size=9"], ["play b a9"], "lz-analyze 1 maxmoves 1", r"info move \w\d visits \d+ winrate \d+ prior \d+ order 0 pv(?: \w\d)+"),
    # Without connections there is the tree alone.
    (["--size=7", "--hsearch=off"], [], "lz-analyze 1 minmoves 1 maxmoves 2", rf"{MOVE['lz-analyze']} {MOVE['lz-analyze']}"),
    (["--size=5", "--look=1", "--playouts=1"], [], "kata-analyze b 1 ownership true maxmoves 1", r"info move [a-e][1-5] visits .*"),
]
WRONG = ["lz-analyze b w", "lz-analyze b 1 interval", "lz-analyze interval x", "kata-analyze avoid b a1 1", "hexd-analyze 1 2"]
# Without a number of cells, and with times that no clock has.
WRONG += ["lz-analyze maxmoves 0", "lz-analyze b 1 maxmoves 00", "lz-analyze b 999999999999", f"lz-analyze b {'9' * 400}"]


def found_faults(program):
    for words, lines, last, want in FOUND:
        with Driver(program, *words) as driver:
            for line in lines:
                driver.ask(line)
            driver.send(last)
            head, line = driver.line(), driver.line()
            if head != "= " or not re.fullmatch(want, line):
                yield f"{words}, {lines}, {last}: {head!r}, {line}"


# A look's rows: one that loses, by its line, one that goes on, and one without a walk; and what is told of them.
LOOK = "nodes 30\na1 2 0 lost line b1\nb2 20 700 line c2 b3\nc3 0 500"
TOLD = [
    "info move b2 visits 20 winrate 7000 prior 9091 order 0 pv b2 c2 b3",
    "info move a1 visits 2 winrate 0 prior 909 proved loss order 1 pv a1 b1",
]


def row_faults(_program):
    """What is read of a look's rows: what is proved, and the line."""
    found = found_in("b2", "lost no\nallowed a1 b2 c3", LOOK, "")
    priors = priors_of(found)
    told = [it.told(FORMS[b"lz-analyze"], order, priors[it.cell]) for order, it in enumerate(found)]
    worths = [shown_worth(*row.split()[1:]) for row in LOOK.encode().splitlines()[1:]]
    mover = Mover.__new__(Mover)
    mover.hexd = SimpleNamespace(tell={b"mustplay": b"lost no", b"look-report": LOOK.encode()}.get)
    shares = [mover.share(b"a1"), mover.share(b"b2")]
    if (told, worths, shares) != (TOLD, [b"lost", b"700", b"-"], [0.0, 0.7]):
        yield f"rows with lines: {told}, {worths}, {shares}"


def refused_faults(program):
    with Driver(program, "--size=1") as driver:
        for line in WRONG:
            if (said := driver.ask(line)) != "? syntax error":
                yield f"{line}: {said}"
        driver.ask("play b a1")
        if (said := driver.ask("lz-analyze b 1")) != "? game over":
            yield f"an analysis of a game that is over: {said}"


def trace_faults(program):
    """The file of --trace has what the game's searches write alone."""
    with tempfile.TemporaryDirectory() as folder:
        trace = Path(folder, "t")
        with Driver(program, "--size=4", "--swap=off", "--hsearch=off", "--playouts=50", f"--trace={trace}") as driver:
            driver.ask("genmove b")
            before = trace.read_bytes()
            driver.send("lz-analyze w 1")
            driver.line(), driver.line()
            driver.send("name")
            driver.rest(), driver.rest()
        if not before or trace.read_bytes() != before:
            yield "an analysis changes the file of --trace"


def faults(program):
    """All that differs."""
    for part in (form_faults, end_faults, found_faults, row_faults, refused_faults, trace_faults):
        yield from part(program)
