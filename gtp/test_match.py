"""Matches between programs, by examples/match.py: over the built program and over stand-ins that resign, cheat, end or are late.
gtp/test.py runs these."""

import re
import signal
import subprocess
import sys
import tempfile
import time
from pathlib import Path

ROOT = Path(__file__).resolve().parent.parent
MATCH, GTP = ROOT / "examples" / "match.py", ROOT / "bin" / "hexd-gtp"
LIMIT = 120
# A program that plays the first empty cell of size 3, but for what its word says it does at its second move.
STANDIN = """#!{python}
import sys, time
cells, moves = set(), 0
for line in sys.stdin:
    name, *args = line.split()
    said = "= "
    if name == "list_commands":
        said += "time_left\\nsearch-visits"
    elif name == "clear_board":
        cells, moves = set(), 0
    elif name == "play":
        cells.add(args[1])
        said = "? no" if sys.argv[1] == "refuse" and len(cells) > 2 else said
    elif name == "search-visits":
        said += "a1 5 b]1 70"
    elif name == "genmove":
        cell = next(column + row for row in "123" for column in "abc" if column + row not in cells)
        moves += 1
        if moves == 2 and sys.argv[1] == "end":
            sys.exit(1)
        if moves == 2 and sys.argv[1] == "late":
            time.sleep(1000)
        cell = {{"resign": "Resign", "cheat": "a1", "swap": "SWAP", "text": "a1 b1"}}.get(sys.argv[1], cell) if moves == 2 else cell
        cells.add(cell)
        said += cell.upper()
    print(said + "\\n", flush=True)
"""
# The words of both programs, further words, and the lines of the games, but for who begins.
ENDS = [
    ("plain", "resign", [], ["0 a black 3 R", "1 a white 4 R"]),
    ("plain", "cheat", [], ["0 a black 3 F", "1 a white 4 F"]),
    ("text", "plain", [], ["0 b white 4 F", "1 b black 3 F"]),
    ("end", "plain", [], ["0 b white 4 F", "1 b black 3 F"]),
    # A swap comes after one stone alone.
    ("plain", "swap", ["--swap"], ["0 a black 3 F", "1 a white 4 F"]),
    # Who takes no legal move has lost too.
    ("plain", "refuse", [], ["0 a black 2 F", "1 a white 3 F"]),
    ("late", "plain", ["--seconds", "4"], ["0 b white 4 T", "1 b black 3 T"]),
    ("plain", "plain", [], ["0 a black 7 joined", "1 b black 7 joined"]),
]
EMPTY = "a1 # an opening\n\n# no opening\n"


class Tries:
    """Matches in a folder of their own."""

    def __init__(self, folder):
        self.folder = Path(folder)
        self.standin = self.folder / "stand in"
        self.standin.write_text(STANDIN.format(python=sys.executable))
        self.standin.chmod(0o755)
        (self.folder / "openings").write_text(EMPTY)
        self.number = 0

    def command(self, word):
        return f"'{self.standin}' {word}"

    def words(self, a, b, *more, at=None):
        """The words of a match that is at this place, or at a new one."""
        self.number += at is None
        place = self.folder / f"match {at or self.number}"
        return [sys.executable, MATCH, "--size=3", f"--openings={self.folder / 'openings'}", f"--folder={place}", *more, a, b]

    def play(self, *words, **how):
        done = subprocess.run(self.words(*words, **how), capture_output=True, text=True, timeout=LIMIT)
        return done.returncode, done.stdout.splitlines(), done.stderr


def end_faults(tries):
    """How games end, and what their records have."""
    for a, b, more, want in ENDS:
        status, lines, errors = tries.play(tries.command(a), tries.command(b), *more)
        if (status, lines[:2], errors) != (0, want, ""):
            yield f"{a} against {b}: {status}, {lines}, {errors}"
    record = (tries.folder / f"match {tries.number}" / "0.sgf").read_text()
    if not re.search(r"RE\[B\+\]\n;B\[a1\]C\[opening\]\n;W\[b1\]C\[b, \d\.\d\d s; search-visits: b\\\]1 70, a1 5\]\n;B\[c1\]", record):
        yield f"the record of a game: {record}"


def strength_faults(tries):
    """The strength is that of tools/bradley_terry.py, and each opening is played in each round."""
    status, lines, _ = tries.play(tries.command("plain"), tries.command("resign"), "--rounds", "2")
    if status or lines[3:] != ["3 a white 4 R", "a 4 b 0", "a is stronger by +382 ± 508"]:
        yield f"a match of two rounds: {status}, {lines}"


def hexd_faults(tries):
    """hexd against itself, with swaps: each record is one that hexd loads."""
    commands = [f"'{GTP}' --strength quick", f"'{GTP}' --playouts 20 --hsearch off"]
    (tries.folder / "openings").write_text("b2\na1 c3\n")
    status, lines, errors = tries.play(*commands, "--swap", "--seconds", "60")
    (tries.folder / "openings").write_text(EMPTY)
    games = sorted((tries.folder / f"match {tries.number}").glob("*.sgf"))
    given = "".join(f"loadsgf {path}\nwinner\n" for path in games)
    done = subprocess.run([GTP], input=given, capture_output=True, text=True, timeout=LIMIT)
    if (status, errors, len(lines), len(games)) != (0, "", 6, 4) or len(re.findall("= (?:black|white)", done.stdout)) != 4:
        yield f"hexd against itself: {status}, {lines}, {errors}, {done.stdout}"
    if "W[swap-pieces]" not in games[0].read_text():
        yield f"a swap: {games[0].read_text()}"


def table_faults(tries):
    """Of a table the openings of the size are played, and openings/even.tsv is one."""
    plain = tries.command("plain")
    (tries.folder / "openings").write_text("size\tmoves\twinner\n4\tb2\t-\n3\tc1 a3\tblack\n3\tb1\t-\n")
    tries.play(plain, plain)
    place = tries.folder / f"match {tries.number}"
    begins = [re.findall(r";[BW]\[(\w+)\]C\[opening\]", (place / f"{number}.sgf").read_text()) for number in range(4)]
    if begins != [["c1", "a3"]] * 2 + [["b1"]] * 2:
        yield f"the openings of a table: {begins}"
    (tries.folder / "openings").write_text("size\tmoves\n4\tb2\n")
    status, _, errors = tries.play(plain, plain)
    if (status, errors) != (1, f"match.py: {tries.folder / 'openings'} has no opening of size 3\n"):
        yield f"a table without the size: {status}, {errors}"
    (tries.folder / "openings").write_bytes((ROOT / "openings" / "even.tsv").read_bytes())
    status, lines, errors = tries.play(plain, plain)
    if (status, errors, len(lines)) != (0, "", 2 * 4 + 2):
        yield f"openings/even.tsv: {status}, {lines}, {errors}"


def stop_faults(tries):
    """A match that was stopped goes on, and plays no game again."""
    words = tries.words(tries.command("plain"), tries.command("late"), "--rounds=2", "--seconds=900")
    place = tries.folder / f"match {tries.number}"
    # By `late` no game ends; those that are there are as if they had been played.
    other = tries.folder / f"match {tries.number + 1}"
    tries.play(tries.command("plain"), tries.command("plain"))
    place.mkdir()
    for name in ("0.sgf", "1.sgf"):
        (place / name).write_bytes((other / name).read_bytes())
    process = subprocess.Popen(words, stdout=subprocess.PIPE, text=True, preexec_fn=lambda: signal.signal(signal.SIGINT, signal.SIG_DFL))
    lines = [process.stdout.readline() for _ in range(2)]
    pids = []
    while len(pids) < 3:
        pids = Path(f"/proc/{process.pid}/task/{process.pid}/children").read_text().split()
        time.sleep(0.01)
    process.send_signal(signal.SIGINT)
    rest, _ = process.communicate(timeout=LIMIT)
    left = sorted(path.name for path in place.iterdir())
    if process.returncode != 130 or lines != ["0 a black 7 joined\n", "1 b black 7 joined\n"] or not rest.startswith("a 1 b 1\n"):
        yield f"a match that is stopped: {process.returncode}, {lines}, {rest}"
    if left != ["0.sgf", "1.sgf", "match.json"] or any(Path(f"/proc/{pid}").exists() for pid in pids):
        yield f"a match that is stopped leaves {left}, {pids}"
    before = (other / "0.sgf").stat().st_mtime_ns
    (other / "1.sgf").unlink()
    # As a match has left it that was ended while it was written.
    (other / "match.json").write_text("")
    status, lines, _ = tries.play(tries.command("plain"), tries.command("plain"), at=tries.number)
    if (status, lines[:3]) != (0, ["0 a black 7 joined", "1 b black 7 joined", "a 1 b 1"]) or (other / "0.sgf").stat().st_mtime_ns != before:
        yield f"a match that goes on: {status}, {lines}"
    left = sorted(path.name for path in other.iterdir())
    if left != ["0.sgf", "1.sgf", "match.json"] or not (other / "match.json").read_text():
        yield f"a match that goes on leaves {left}"


def refused_faults(tries):
    """Why a match isn't played is said, in a line."""
    plain = tries.command("plain")
    tries.play(plain, plain)
    last = tries.folder / f"match {tries.number}"
    rows = [
        ((plain, tries.command("late")), {"at": tries.number}, f"{last} has another match; --folder names one for this"),
        (("/nowhere/x", plain), {}, "a, /nowhere/x: No such file or directory"),
        ((plain, "/bin/false"), {}, "b, /bin/false: it takes no command that begins a game"),
        ((plain, "'unclosed"), {}, "No closing quotation"),
    ]
    for words, how, why in rows:
        status, _, errors = tries.play(*words, **how)
        if (status, errors) != (1, f"match.py: {why}\n"):
            yield f"{words}: {status}, {errors}"
    (tries.folder / "openings").write_text("a1 b1 b1\n")
    status, _, errors = tries.play(plain, plain)
    if (status, errors) != (1, "match.py: an opening has no legal move b1 of black after 2 moves\n"):
        yield f"an opening that isn't legal: {status}, {errors}"


def faults():
    """All that differs."""
    for part in (end_faults, strength_faults, hexd_faults, table_faults, stop_faults, refused_faults):
        with tempfile.TemporaryDirectory(prefix="a match ") as folder:
            yield from part(Tries(folder))
