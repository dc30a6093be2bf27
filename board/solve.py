#!/usr/bin/env python3
"""Says who wins the position of a record, and meanwhile how far it is: `hexd solve` with growing budgets.

    solve.py [--budget N] [--hsearch on|off] [--json] [GAME.sgf] >game.cert

Its output is that of `hexd solve`: a line, and a certificate if the position is solved; with --json the same as one object. On
standard error stands what each budget came to, and every few seconds how long the one has taken that is at work. Ctrl-C leaves
what the last one came to.
"""

import signal
import sys
import threading
import time
from pathlib import Path

import hexd
import limits
import objects
import records
import settings
import troubles
from sgf import printable

# The budgets: the first, and how many times as large the next one is. What is searched anew is a third of it at most.
FIRST, GROWTH = 100, 4
DEFAULT, MOST = 1_000_000, 2**64 - 1
# So often it is told that a budget is still at work.
TOLD_SECONDS = 10
FAILED, STOPPED = 1, 128 + signal.SIGINT


def tell(text):
    troubles.say(f"hexd-solve: {text}")


def counted(number):
    return f"{number:,} position{'s' if number != 1 else ''}"


class Work:
    """One budget at work; every few seconds it is told for how long."""

    def __init__(self, solver, budget):
        self.solver, self.budget = solver, budget
        self.ended = threading.Event()
        self.began = time.monotonic()

    def seconds(self):
        return time.monotonic() - self.began

    def watch(self):
        while not self.ended.wait(TOLD_SECONDS):
            tell(f"up to {counted(self.budget)}: {self.seconds():.0f} s so far")

    def answer(self, record):
        threading.Thread(target=self.watch, daemon=True).start()
        try:
            return self.solver.answer(record)
        finally:
            self.ended.set()
            self.solver.kill()


def budgets(most):
    """The budgets, up to the largest."""
    budget = min(FIRST, most)
    while budget < most:
        yield budget
        budget *= GROWTH
    yield most


def solved(record, options):
    """What `hexd solve` says with the last budget that came to its end, that budget, and whether Ctrl-C came before."""
    said, spent, began = "", None, time.monotonic()
    try:
        for budget in budgets(options.budget):
            work = Work(limits.Solver(budget, options.program, ("--hsearch", options.hsearch)), budget)
            said, spent = work.answer(record), budget
            first = said.partition("\n")[0]
            if not first:
                raise hexd.EngineEnded(f"{options.program} says nothing: it is no hexd")
            tell(f"{first}, with up to {counted(budget)}, after {time.monotonic() - began:.1f} s")
            if not first.startswith("unknown"):
                break
    except KeyboardInterrupt:
        return said, spent, True
    except hexd.EngineEnded as ended:
        # On a terminal Ctrl-C ends both.
        if ended.status == -signal.SIGINT:
            return said, spent, True
        raise
    return said, spent, False


def wanted(words):
    parser = settings.Parser(prog="hexd-solve", description="Says who wins the position of a record, and how far it is.")
    budget = f"how many positions each search may enter, 1 to {MOST:,}; {DEFAULT:,} by default"
    parser.add_argument("--budget", metavar="N", type=settings.number(1, MOST), default=DEFAULT, help=budget)
    text = "whether it looks for connections, which are in its certificates; on by default"
    parser.add_argument("--hsearch", metavar="WORD", choices=["on", "off"], default="on", help=text)
    parser.add_argument("--json", action="store_true", help="write what is known as one line of JSON")
    parser.add_argument("--program", metavar="FILE", type=hexd.program_of, default=hexd.PROGRAM, help="the program hexd")
    parser.add_argument("record", metavar="GAME.sgf", nargs="?", default="-", help="the record; -: standard input")
    return parser.parse_args(words)


def read(name):
    """The record of a file in hexd's form."""
    with sys.stdin.buffer if name == "-" else open(name, "rb") as file:
        record = records.read(file.read(records.MOST_BYTES + 1))
    for note in record.notes:
        tell(note)
    return record.main.encode()


def written(text):
    """Writes the answer, and gives the status. If who reads it has gone, this process ends as others in a pipe do."""
    signal.signal(signal.SIGPIPE, signal.SIG_DFL)
    try:
        with open(1, "w", encoding="ascii", closefd=False) as output:
            output.write(text)
        return 0
    except OSError as fault:
        tell(f"standard output: {fault.strerror}")
        return 1


def main():
    options = wanted(sys.argv[1:])
    try:
        said, budget, is_stopped = solved(read(options.record), options)
    except (records.Refused, hexd.EngineEnded) as why:
        tell(f"{printable(options.record)}: {why}")
        return FAILED
    except OSError as fault:
        tell(f"{printable(str(fault.filename or options.record))}: {fault.strerror}")
        return FAILED
    if is_stopped:
        tell("stopped; what is known stands" if said else "stopped before anything was known")
    if options.json:
        said = objects.line_of(objects.solved(said, budget, is_stopped)) + "\n"
    return written(said) or (STOPPED if is_stopped else 0)


if __name__ == "__main__":
    # Also if a shell has started it in the background; and hexd ends with it.
    signal.signal(signal.SIGINT, signal.default_int_handler)
    for number in (signal.SIGTERM, signal.SIGHUP):
        # nohup has it ignored, for who starts hours of work and leaves.
        if signal.getsignal(number) != signal.SIG_IGN:
            signal.signal(number, lambda number, _: sys.exit(128 + number))
    try:
        sys.exit(main())
    except KeyboardInterrupt:
        sys.exit(STOPPED)
