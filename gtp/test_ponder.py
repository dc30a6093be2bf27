"""Pondering, over the built program: what is found is what hexd says of the same game, and any line ends it at once. gtp/test.py
runs these."""

import os
import select
import signal
import sys
import tempfile
from pathlib import Path

ROOT = Path(__file__).resolve().parent.parent
sys.path[1:1] = [str(ROOT / "tools"), str(ROOT / "board")]
from commands import Session
from engine import Refused, Request
from ponder import SEED_STEP, SEEDS
from test_analysis import Driver
from words import Words

LIMIT = 120
ASKED = ["mustplay", "search-report", "look-report", "wincert", "printsgf"]
# The words of sessions, their seeds, how many of their moves need no search, and how many are compared.
GAMES = [
    (["--size=5", "--playouts=300", "--hsearch=off", "--swap=off"], SEEDS - 1, 0, 5),
    (["--size=7", "--strength=quick", "--swap=off"], 0, 0, 6),
    (["--size=6", "--look=20", "--playouts=50"], 0, 1, 4),
]


class Table:
    """A session of the filter, by its commands."""

    def __init__(self, *words):
        self.session = Session(Words.of(words))

    def do(self, line):
        """A line's answer."""
        name, _, rest = line.partition(" ")
        own = {"genmove": self.session.genmove, "set_random_seed": self.session.set_random_seed}
        try:
            text = own[name](Request(b"", name.encode(), rest.encode())) if name in own else None
            return (self.session.hexd.ask(line.encode()) if text is None else text).decode()
        except Refused as why:
            return why.args[0].decode()

    def pondered(self):
        """Ponders to the end: the reply that is expected, and the process that has the answer; None if there is none."""
        self.session.begin_pondering()
        ponder = self.session.ponder
        while ponder and ponder.stream and select.select([ponder.stream], [], [], LIMIT)[0]:
            ponder.hear()
        return (ponder.found[1].decode(), ponder.engine.process.pid) if ponder and ponder.found else None

    def moved(self):
        """A move, what is said of it, and which process has made it."""
        return [self.do("genmove b"), *map(self.do, ASKED)], self.session.hexd.process.pid

    def end(self):
        self.session.stop_pondering()
        self.session.hexd.close()


def said(words, seed, record):
    """What hexd says of its move, after the reply to a record's game if there is one. A look-ahead keeps what it found for that."""
    table = Table(*words, f"--seed={seed % SEEDS}")
    if record:
        with tempfile.NamedTemporaryFile("w") as file:
            file.write(record)
            file.flush()
            table.do(f"loadsgf {file.name}")
        table.session.hexd.ask(b"genmove w")
    answers, _ = table.moved()
    table.end()
    return answers


def same_faults():
    """In a game whose replies are the expected ones each answer is hexd's, and there before it is asked for."""
    for words, seed, unsearched, moves in GAMES:
        table, record = Table(*words, f"--seed={seed}", "--ponder=on"), ""
        for number in range(moves):
            got, process = table.moved()
            # The reply has the seed before.
            want = said(words, seed + (number and SEED_STEP * (number - 1 - unsearched)), record)
            if got != want or number and process != expected:
                yield f"{words}, move {number}: {got} by {process}, and without pondering {want}"
            found, record = table.pondered(), got[-1]
            if not found:
                break
            reply, expected = found
            table.do(f"play w {reply}")
        if number < 2:
            yield f"{words}: a game of {number} moves"
        table.end()


def other_faults():
    """What was found for another game, or by other settings, isn't played; and nothing is pondered where it would be of no use."""
    words = ["--size=5", "--playouts=300", "--hsearch=off", "--swap=off", "--ponder=on"]
    for line in ("undo", "play w {other}", "set_random_seed 9"):
        table = Table(*words)
        table.moved()
        reply, hexd = table.pondered()
        lines = [line] if "{" in line else [f"play w {reply}", line]
        for given in lines:
            table.do(given.format(other="a1" if reply != "a1" else "e5"))
        if table.moved()[1] == hexd:
            yield f"what was pondered is played after {lines}"
        table.end()
    for words in (["--size=1", "--swap=off", "--ponder=on"], ["--size=3", "--swap=off"], ["--size=3", "--swap=off", "--trace=t", "--ponder=on"]):
        table = Table(*words)
        table.do("genmove b")
        table.session.begin_pondering()
        if table.session.ponder:
            yield f"{words}: it ponders"
        table.end()


def clock_faults():
    """By a clock what was pondered is a first trial: another search follows only if it is much larger."""
    table = Table("--size=7", "--swap=off", "--seconds=1", "--ponder=on")
    stderr, quiet = os.dup(2), os.open(os.devnull, os.O_WRONLY)
    os.dup2(quiet, 2)
    try:
        table.moved()
        reply, _ = table.pondered()
        table.do(f"play w {reply}")
        found = table.session.ponder.found[3].decode()
        table.session.pace.is_worth = lambda factor: False
        if (move := table.do("genmove b")) != found:
            yield f"by a clock {move} is played, and {found} was pondered"
    finally:
        os.dup2(stderr, 2)
        os.close(stderr)
        os.close(quiet)
    table.end()


def line_faults(program):
    """Any line is answered at once, and a line that leaves the game as it is has it begin anew."""
    with Driver(program, "--size=9", "--look=1000", "--playouts=10", "--swap=off", "--ponder=on") as driver:
        driver.ask("genmove b")
        first = ponders_of(driver)
        os.kill(first, signal.SIGSTOP)
        if driver.ask("name") != "= hexd":
            yield "a line isn't answered"
        second = ponders_of(driver)
        if second == first:
            yield "a line doesn't end it"
        os.kill(second, signal.SIGSTOP)
        driver.ask("play w a1")
        if len(driver.children()) != 1:
            yield f"after a reply it goes on: {driver.children()}"
        driver.send("quit")
        if driver.process.wait(LIMIT) != 0:
            yield f"it ends with {driver.process.returncode}"


def is_hexd(process):
    """Whether a process of the filter's is hexd by now: before that it is the filter once more, which must not be stopped."""
    return b"filter.py" not in Path(f"/proc/{process}/cmdline").read_bytes()


def ponders_of(driver):
    """The hexd that ponders, once it is there."""
    while len(children := driver.children()) < 2 or not is_hexd(children[-1]):
        select.select([], [], [], 0.01)
    return children[-1]


def faults(program):
    """All that differs."""
    for part in (same_faults(), other_faults(), clock_faults(), line_faults(program)):
        yield from part
