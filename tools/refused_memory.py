#!/usr/bin/env python3
"""Refuses each allocation of some runs in turn, and says how each run ended.

    tools/refused_memory.py [ROW ...]

A run is one of `hex_cli::run`, of words that are read in it, or of `match_ref::run_match`, over
links in memory, in pieces of seven bytes; or one of hexd's own `main`, over the streams and files of
the system. Each has to end with its own result, or with status 5, its line on standard error, and
the answers to the first lines: nothing is left out, nothing is given by half, and nothing else
comes in place of an answer.

`rt try --fail-alloc N` refuses the Nth allocation of a program, which it builds for that number.
tools/refused_memory/program.txt is a program that makes as many allocations before the run as its
first argument says, so that one build serves for all: it is built twice, once to count the allocations of
each run, and once to refuse each of them. hexd's main.rt with tools/refused_memory/main.txt does so by its
last argument. `rt try` builds with checks, so a bad access, a sum that
wraps or a failed `unwrap` ends a run too. That takes some minutes, and no part of it is in the gate.

For each row it prints how many allocations were refused and how these runs ended. Its status is 1
if one ended otherwise.
"""

import os
import re
import shutil
import subprocess
import sys
import tempfile
from pathlib import Path

import second_checker

TOP = Path(__file__).resolve().parent.parent
PROGRAM = TOP / "tools" / "refused_memory" / "program.txt"
NAME = "refused_memory"
# What is put into hexd's main.rt, each behind or before a text that stands there once; and what comes after it.
MAIN = TOP / "crates" / "hexd" / "src" / "main.rt"
BEFORE_MAIN = ("-> ExitCode {\n", "    if !is_begun(&rt) {\n        return ExitCode::from(0);\n    }\n")
AFTER_MAIN = ("    ExitCode::from(status)\n", "    say_end(&rt);\n")
USES_OF_MAIN = ("use std::process::ExitCode;\n", "use std::alloc::Global;\nuse std::env;\n")
MORE_OF_MAIN = TOP / "tools" / "refused_memory" / "main.txt"
NAME_OF_MAIN = "refused_main"
# The number of the allocation that is refused. The program's MOST is above it.
REFUSED = 2000

RECORD = r"(;FF[4]GM[11]SZ[3]AP[Editor:0.9]C[a\]b];B[a2];W[swap-pieces];B[c3])"
V1 = (TOP / "examples" / "certificates" / "v1.cert").read_text()
EMPTY_3 = "   a b c\n 1 . . .\n  2 . . .\n   3 . . .\n\n"


class Row:
    """A run: its words, its input, and the text that it gives, if that is one text."""

    program = "hexd"

    def __init__(self, words, text, given, file=("none", "")):
        self.words, self.input, self.given, self.file = words.split(), text, given, file
        self.is_session = words.startswith("htp")

    def is_given(self, given):
        return given == self.given

    def fronts(self):
        """What may have been given when memory ran out: the first answers, or nothing."""
        answers = self.given.split("\n\n")[:-1] if self.is_session else []
        return {"".join(answer + "\n\n" for answer in answers[:count]) for count in range(len(answers) + 1)}


class FirstCertificate(Row):
    """A run whose cell and certificate are left open: what it gives is what it gave when it was counted."""

    def __init__(self):
        super().__init__("htp", "boardsize 2\ngenmove b\nwincert\n", None)

    def is_given(self, given):
        if self.given is None:
            fronts = ["= \n\n= %s\n\n= hexcert 1\nsize 2\nplayer black\nblack\nwhite\n" % cell for cell in ("a2", "b1")]
            if not given.startswith(tuple(fronts)) or given.count("\n\n") != 3:
                return False
            self.given = given
        return given == self.given


class Solved(Row):
    """A run of `solve` that White wins: the certificate is left open, but the second checker accepts it."""

    def __init__(self, words, record):
        super().__init__(words, record, None)

    def fronts(self):
        return {""}

    def is_given(self, given):
        winner, _, certificate = given.partition("\n")
        return winner == "won white" and second_checker.answer(certificate.encode()) == "yes semi"


class Match(Row):
    """A run of hexmatch, which reads nothing."""

    program = "hexmatch"

    def __init__(self, words, given):
        super().__init__(words, "", given)


class Main(Row):
    """A run of hexd's own `main`, whose words end with the number of allocations before it, as `--seed`."""

    program = "main"

    def __init__(self, words, given):
        super().__init__(words + " --seed", "", given)


TWO_GAMES = "0 a black 1\n(;FF[4]GM[11]SZ[1];B[a1])\n1 b black 1\n(;FF[4]GM[11]SZ[1];B[a1])\na 1 b 1\n"

ROWS = {
    "swap-undo": Row(
        "htp",
        "boardsize 3\nplay b a2\nplay w swap-pieces\nshowboard\nundo\nshowboard\nundo\nundo\n",
        "= \n\n= \n\n= \n\n= \n" + EMPTY_3.replace("1 . .", "1 . W") + "= \n\n= \n" + EMPTY_3.replace("2 .", "2 B")
        + "= \n\n? cannot undo\n\n",
    ),
    "load-and-print": Row(
        "htp",
        "loadsgf g.sgf\nprintsgf\n",
        "= \n\n= (;FF[4]GM[11]SZ[3];B[a2];W[swap-pieces];B[c3])\n\n",
        ("g.sgf", RECORD),
    ),
    "forced-win": Row(
        "htp --hsearch off --playouts 4",
        "boardsize 2\nplay b a2\nplay w b2\ngenmove b\nsearch-report\nwinner\n",
        "= \n\n= \n\n= \n\n= a1\n\n= playouts 4\na1 2 2\nb1 2 2\n\n= black\n\n",
    ),
    "first-certificate": FirstCertificate(),
    "check-v1": Row("check", V1, "yes semi\n"),
    "solve-two": Solved("solve", "(;GM[11]SZ[2];B[a1])"),
    "solve-plainly": Solved("solve --hsearch off", "(;GM[11]SZ[2];B[a1])"),
    "solve-nothing": Row("solve --hsearch off --budget 1", "(;GM[11]SZ[2])", "unknown 1\n"),
    "sim-one": Row(
        "sim --size 1 --workers 3 --playouts 10 --steps 100", "", "best a1\nplayouts 10\na1 10 10\n"
    ),
    "match-records": Match("--size 1 --games 2 --records on --playouts-a 4 --playouts-b 4", TWO_GAMES),
    "match-openings": Match("--size 1 --games 2 --records on --opening a1,A1", TWO_GAMES),
    "main-trace": Main(
        "bench --size 1 --playouts 1 --trace t", "size 1\nstones 0\nplayouts 1\nrecords 1\nbest a1 1\n"
    ),
}


class Run:
    """What the program wrote of one run."""

    def __init__(self, text):
        self.place, _, rest = text.partition("\n")
        if self.place.startswith("before"):
            return
        status, length, rest = rest.split("\n", 2)
        self.status, self.errors, self.given = int(status), rest[: int(length)], rest[int(length) :]

    @classmethod
    def of_main(cls, text, errors, status):
        """The same of hexd's `main`, whose text the place ends."""
        given, _, place = text.removesuffix("\n").rpartition("\n")
        given = given + "\n" if given else ""
        return cls(f"{place}\n{status}\n{len(errors)}\n{errors}{given}")

    def count(self, word):
        """The number after this word, which has to be the first one."""
        if not self.place.startswith(word + " "):
            sys.exit("the refused allocation is not where it was looked for: %s" % self.place)
        return int(self.place.split()[1])


def main_text():
    """hexd's main.rt, with what it needs to make allocations before and after its run."""
    text = MAIN.read_text()
    for at, more in (BEFORE_MAIN, AFTER_MAIN, USES_OF_MAIN):
        if text.count(at) != 1:
            sys.exit("%s has not once %r" % (MAIN, at))
        text = text.replace(at, at + more if at == BEFORE_MAIN[0] else more + at)
    return text + MORE_OF_MAIN.read_text()


def make_repository(folder):
    """The sources of every crate, and the programs beside them."""
    for crate in (TOP / "crates").iterdir():
        if (crate / "src").is_dir():
            shutil.copytree(crate / "src", folder / "crates" / crate.name / "src")
    source = folder / "crates" / NAME / "src"
    source.mkdir(parents=True)
    shutil.copy(PROGRAM, source / "main.rt")
    shutil.copy(TOP / "HANDLES", folder)
    source = folder / "crates" / NAME_OF_MAIN / "src"
    source.mkdir(parents=True)
    (source / "main.rt").write_text(main_text())
    crates = (TOP / "crates.txt").read_text()
    uses = "\n%s: hex_io hex_plan hex_devices hexd_args hex_cli match_ref search_team anyhow\n" % NAME
    below_main = next(line for line in crates.splitlines() if line.startswith("hexd:")).partition(":")[2]
    (folder / "crates.txt").write_text(crates + uses + "%s:%s\n" % (NAME_OF_MAIN, below_main))


def run_all(folder, runs):
    """Runs (row, number of allocations before it) by one build of each program."""
    came = {}
    for is_main in (False, True):
        some = [run for run in runs if (ROWS[run[0]].program == "main") == is_main]
        came |= run_some(folder, some, is_main) if some else {}
    return came


def arguments(row, before):
    """The arguments of a run."""
    return [*row.words, str(before)] if row.program == "main" else [str(before), *row.file, row.program, *row.words]


def ends_of_main(errors):
    """What each run of hexd's `main` said on standard error, and its status, by the lines of `rt try`."""
    ends, said = {}, ""
    for line in errors.splitlines(keepends=True):
        found = re.match(r"case=(\S+) run=ended status=(\d+) ", line)
        if found:
            ends[found[1]], said = (said, int(found[2])), ""
        elif not line.startswith("allocations: "):
            said += line
    return ends


def run_some(folder, runs, is_main):
    """Runs by one build of one program."""
    cases = folder / "cases"
    shutil.rmtree(cases, ignore_errors=True)
    cases.mkdir()
    names = {}
    for name, before in runs:
        row, case = ROWS[name], "%s.%d" % (name, before)
        names[case] = (name, before)
        (cases / case).write_text(row.input)
        (cases / (case + ".args")).write_text("\n".join(arguments(row, before)) + "\n")
    command = ["rt", "try", "--fail-alloc", str(REFUSED), "--cases", str(cases)]
    program = NAME_OF_MAIN if is_main else NAME
    done = subprocess.run(command, cwd=folder / "crates" / program, capture_output=True, text=True)
    came, ends = {}, ends_of_main(done.stderr) if is_main else {}
    for part in done.stdout.split("== ")[1:]:
        case, _, text = part.partition("\n")
        came[names[case]] = Run.of_main(text, *ends[case]) if is_main else Run(text)
    if done.returncode != 0 or len(came) != len(runs):
        sys.exit("%s\nrt try ended with status %d: %d of %d runs" % (done.stderr, done.returncode, len(came), len(runs)))
    return came


def verdict(row, run):
    """How a run ended in which an allocation was refused; None if that may not be."""
    if run.place != "within":
        return None
    if run.status == 0 and run.errors == "" and row.is_given(run.given):
        return "result"
    if run.status == 5 and run.errors == "hexd: out of memory\n" and run.given in row.fronts():
        return "memory"
    return None


def main():
    names = sys.argv[1:] or list(ROWS)
    if not set(names) <= set(ROWS):
        sys.exit("the rows are " + ", ".join(ROWS))
    with tempfile.TemporaryDirectory() as place:
        folder = Path(place)
        make_repository(folder)
        wrong = 0
        # If nothing is refused in the run: what is left of the allocations before and after it.
        counted = run_all(folder, [(name, before) for name in names for before in (0, 2 * REFUSED)])
        first = {}
        for name in names:
            whole, first[name] = counted[name, 0], counted[name, 2 * REFUSED].count("before")
            if whole.status != 0 or whole.errors != "" or not ROWS[name].is_given(whole.given):
                sys.exit("%s: status %d, %r" % (name, whole.status, whole.given))
        last = {name: counted[name, 0].count("after") for name in names}
        runs = [(name, before) for name in names for before in range(last[name] + 1, first[name] + 1)]
        came = run_all(folder, runs)
        for name in names:
            ends = {"result": 0, "memory": 0}
            for before in range(first[name], last[name], -1):
                end = verdict(ROWS[name], came[name, before])
                if end is None:
                    wrong += 1
                    run = came[name, before]
                    print("%s: allocation %d of it refused: %s" % (name, first[name] - before + 1, vars(run)))
                else:
                    ends[end] += 1
            print(
                "%s: %d allocations refused in turn: status 5 and the first answers %d times, the result %d times"
                % (name, first[name] - last[name], ends["memory"], ends["result"])
            )
    return 1 if wrong else 0


if __name__ == "__main__":
    sys.exit(main())
