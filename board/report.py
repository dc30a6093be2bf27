#!/usr/bin/env python3
"""Writes a report of a game: one HTML file with each position of a record and what hexd says of it; or draws a certificate.

    report.py [--playouts N] [--weight N] [--workers N] [--json] GAME.sgf >GAME.html
    report.py [--json] WIN.cert >WIN.html

The file's name may be `-`, standard input. For each position hexd is asked for a move, its plan, its search and its certificate,
which a second process checks; then the record's own move is played. On standard error stands how far it is, and why it ends.
With --json the output is one object in place of the page.
"""

import html
import re
import signal
import sys
import tempfile
from pathlib import Path

import certificate
import hexd
import limits
import objects
import onefile
import records
import settings
import troubles
from openings import MOST_BYTES, Openings
from sgf import printable

FRAME = "report.html"
SCRIPTS = ["elements", "cells", "board", "certificate", "thought", "proofs", "plot", "report"]
# A position that the solver decides within this time counts as decided.
SOLVE_SECONDS = 1
# More than it enters in that time.
MOST_POSITIONS = 10_000_000


def steps_of(record):
    """The number of start stones of each colour, and the steps, of a record as `printsgf` writes it."""
    root, *nodes = record[2:-1].split(";")
    start = {colour: len(re.findall(r"\[", "".join(re.findall(rf"A{colour}((?:\[\w+\])+)", root)))) for colour in "BW"}
    return start, [{"colour": node[0].lower(), "move": node[2:-1]} for node in nodes]


def stones_of(board):
    """The stones that `showboard` shows, as pairs of a vertex and a colour."""
    stones = []
    for row, line in enumerate(board.splitlines()[2:], 1):
        marks = line.split()[1:]
        stones += [(f"{chr(97 + column)}{row}", mark.lower()) for column, mark in enumerate(marks) if mark != "."]
    return stones


class Reporter:
    """One process, and what is asked of it for each position."""

    def __init__(self, engine, program):
        self.engine, self.program = engine, program

    def ask(self, line):
        """The text of an answer, or None where it is a failure."""
        answer = self.engine.ask(line)
        return answer.text if answer.done else None

    def may_swap(self, mover, stones):
        """Whether White may swap, by this move or by the next. That it is legal is hexd's answer, which is taken back."""
        if mover == "b" or self.ask(f"play w {records.SWAP}") is None:
            return mover == "b" and not stones
        self.ask("undo")
        return True

    def thought(self, mover, swap):
        """What hexd says with this player to move, in the words of the page; None once the game is over."""
        cell = self.ask(f"genmove {mover}")
        if cell is None:
            return None
        said = {"mover": mover, "cell": cell, "mustplay": self.ask("mustplay"), "report": self.ask("search-report")}
        said["certificate"] = certificate = self.ask("wincert")
        said["swap"] = swap
        said["checked"] = certificate and limits.check(f"{certificate}\n".encode(), self.program)
        self.ask("undo")
        return said

    def solved(self, mover):
        """Who wins by the solver with this player to move, 'b' or 'w'; None if it doesn't say so in a short time."""
        record = self.ask("printsgf")
        _, steps = steps_of(record)
        # For the solver whoever did not move last is to move, and Black at the start.
        if mover != ("w" if steps and steps[-1]["colour"] == "b" else "b"):
            return None
        try:
            said = limits.Solver(MOST_POSITIONS, self.program).answer(f"{record}\n".encode(), SOLVE_SECONDS)
        except hexd.EngineEnded:
            return None
        winner = hexd.Solved.of(said).winner
        return winner and winner[0]

    def position(self, mover, step, last):
        winner, stones = self.ask("winner"), stones_of(self.ask("showboard"))
        return {
            "stones": stones,
            "winner": None if winner == "none" else winner[0],
            "thought": self.thought(mover, self.may_swap(mover, stones)),
            "solved": self.solved(mover),
            "step": step,
            # After a swap the one stone that lies there is the last one.
            "last": stones[0][0] if last == records.SWAP else last,
        }

    def report(self, record, name):
        """All of a record: size, positions, the proved winner of its opening. records.Refused where it can't be played."""
        if not self.engine.load(record.main.encode()).done:
            raise records.Refused(records.why_refused(self.ask, record))
        start, steps = steps_of(self.ask("printsgf"))
        for _ in steps:
            self.ask("undo")
        positions, last, mover = [], None, "w" if start["B"] > start["W"] else "b"
        for number, step in enumerate([*steps, None]):
            troubles.say(f"{number} of {len(steps)}")
            positions.append(self.position(step["colour"] if step else mover, step, last))
            if step:
                self.ask(f"play {step['colour']} {step['move']}")
                last, mover = step["move"], "w" if step["colour"] == "b" else "b"
        opening = None
        if steps and not any(start.values()) and steps[0]["colour"] == "b":
            opening = Openings(self.program).winner(record.size, steps[0]["move"])
        notes = record.notes
        return {"name": name, "size": record.size, "positions": positions, "opening": opening and opening[0], "notes": notes}


def page_of(report, given):
    """The file, which needs nothing else."""
    moves = len(report["positions"]) - 1
    summary = f"{moves} moves on size {report['size']}, each position looked at by hexd with {settings.told(given)}"
    notes = "".join(f"<p>{html.escape(note)}</p>" for note in report["notes"])
    return onefile.page_of(FRAME, SCRIPTS, report, title=html.escape(report["name"]), summary=html.escape(summary), notes=notes)


def wanted(words):
    parser = settings.Parser(prog="hexd-report", description="Writes a report of a game as HTML on standard output.")
    settings.add_options(parser)
    parser.add_argument("--json", action="store_true", help="write what the page shows as one line of JSON")
    parser.add_argument("--program", type=hexd.program_of, default=hexd.PROGRAM, help="the program in place of the built one")
    parser.add_argument("record", metavar="GAME.sgf", help="the record of a game, or a certificate, packed by xz or not; -: standard input")
    return parser.parse_args(words)


def content_of(name):
    """The bytes of a file, or of standard input; of a longer one as many as show that it is too long."""
    with sys.stdin.buffer if name == "-" else open(name, "rb") as file:
        return file.read(MOST_BYTES + 1)


def made(options):
    """The page of a record or a certificate, or its JSON; records.Refused, EngineEnded or OSError where there is none."""
    content, program = certificate.unpacked(content_of(options.record)), options.program.resolve()
    name = "Standard input" if options.record == "-" else printable(Path(options.record).name)
    if certificate.is_one(content):
        told = certificate.told(content, program)
        return objects.line_of({"name": name, **told}) + "\n" if options.json else certificate.page_of(told, name)
    record, given = records.read(content), settings.given_of(options)
    with tempfile.TemporaryDirectory(prefix="hexd-report-") as folder:
        with hexd.Engine([program, "htp", *settings.words_of(given)], folder) as engine:
            limits.hold_session(engine.process, given["workers"])
            report = Reporter(engine, program).report(record, name)
    return objects.line_of(objects.report(report)) + "\n" if options.json else page_of(report, given)


def tell(name, why):
    troubles.say(f"hexd-report: {printable(str(name))}: {why}")


def written(page):
    """Writes the page, and gives the status."""
    try:
        with open(1, "w", encoding="utf-8", closefd=False) as output:
            output.write(page)
        return 0
    except OSError as fault:
        tell("standard output", fault.strerror)
        return 1


def main():
    options = wanted(sys.argv[1:])
    try:
        page = made(options)
    except (records.Refused, hexd.EngineEnded) as why:
        tell(options.record, why)
    except OSError as fault:
        tell(fault.filename or options.record, fault.strerror)
    else:
        return written(page)
    return 1


if __name__ == "__main__":
    # Ctrl-C comes to hexd too; with TERM and HUP hexd ends, and the folder goes, as well.
    for number in (signal.SIGTERM, signal.SIGHUP):
        if signal.getsignal(number) != signal.SIG_IGN:
            signal.signal(number, lambda number, _: sys.exit(128 + number))
    try:
        sys.exit(main())
    except KeyboardInterrupt:
        sys.exit(128 + signal.SIGINT)
