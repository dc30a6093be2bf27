#!/usr/bin/env python3
"""bin/hexd-gtp over the built program: what it answers itself, sessions that have to be the same without it, and how it
ends. It says nothing if all is as it has to be."""

import contextlib
import json
import os
import re
import resource
import signal
import subprocess
import sys
import tempfile
import time
from pathlib import Path

import test_analysis
import test_match
import test_moves
import test_ponder

BIN = Path(__file__).resolve().parent.parent / "bin"
WITH, WITHOUT = [str(BIN / "hexd-gtp")], [str(BIN / "hexd"), "htp"]
# Far longer than any step takes: only what waits for good reaches it.
LIMIT = 120
SMALL = ["--size", "3", "--playouts", "200"]
# A search whose tree may take 142 MB.
LARGE = "--hsearch off --playouts 1000000 --expand 1 --words 16777216".split()

# A session on size 3: each command with what is written for it.
ROWS = [
    ("1 name", "=1 hexd\n\n"),
    ("02 komi 6.5", "=2 \n\n"),
    ("komi", "? syntax error\n\n"),
    ("time_settings 1800 60 1", "= \n\n"),
    ("time_settings 1800", "? syntax error\n\n"),
    ("time_left B 1800 0\t# to go", "= \n\n"),
    ("time_left red 1800 0", "? syntax error\n\n"),
    ("all_legal_moves", "= a1 b1 c1 a2 b2 c2 a3 b3 c3\n\n"),
    ("final_score", "? cannot score\n\n"),
    ("play b c2", "= \n\n"),
    ("all_legal_moves b", "= a1 b1 c1 a2 b2 a3 b3 c3\n\n"),
    ("all_legal_moves WHITE", "= a1 b1 c1 a2 b2 a3 b3 c3 swap-pieces\n\n"),
    ("all_legal_moves red", "? syntax error\n\n"),
    ("play b swap", "? illegal move\n\n"),
    ("7 play White Swap", "=7 \n\n"),
    ("printsgf", "= (;FF[4]GM[11]SZ[3];B[c2];W[swap-pieces])\n\n"),
    ("play w swap", "? illegal move\n\n"),
    ("set_random_seed 18446744073709551615", "= \n\n"),
    ("set_random_seed 18446744073709551616", "? syntax error\n\n"),
    ("printsgf", "= (;FF[4]GM[11]SZ[3];B[c2];W[swap-pieces])\n\n"),
    ("play w resign", "= \n\n"),
    ("8 final_score", "=8 B+R\n\n"),
    ("play b resign", "? illegal move\n\n"),
    ("all_legal_moves", "= \n\n"),
    ("undo", "= \n\n"),
    ("final_score", "? cannot score\n\n"),
    ("undo", "= \n\n"),
    ("printsgf", "= (;FF[4]GM[11]SZ[3];B[c2])\n\n"),
    ("play b resign", "= \n\n"),
    ("play b c1", "= \n\n"),
    ("final_score", "? cannot score\n\n"),
    ("play b b3", "= \n\n"),
    ("final_score", "= B+\n\n"),
    ("play w resign", "? illegal move\n\n"),
    ("all_legal_moves", "= \n\n"),
    ("clear_board", "= \n\n"),
    ("known_command time_left", "= true\n\n"),
    ("known_command genmove", "= true\n\n"),
    ("known_command cputime", "= true\n\n"),
    ("known_command gogui-setup", "= false\n\n"),
    ("cputime 1", "? syntax error\n\n"),
    ("help me", "? syntax error\n\n"),
    ("gogui-analyze_commands 1", "? syntax error\n\n"),
    ("kgs-time_settings none", "= \n\n"),
    ("kgs-time_settings byoyomi 30 60 5", "= \n\n"),
    ("kgs-time_settings byoyomi 30", "? syntax error\n\n"),
    ("kgs-time_settings fischer", "? syntax error\n\n"),
    ("kgs-time_settings", "? syntax error\n\n"),
    ("search-visits", "? no search\n\n"),
    ("look-worths", "? no look\n\n"),
    ("look-worths b", "? syntax error\n\n"),
    ("mustplay-cells", "? no search\n\n"),
    ("threat-cells", "? no search\n\n"),
    ("threat-cells x", "? syntax error\n\n"),
    ("wincert-cells 1", "? syntax error\n\n"),
    ("play b b2", "= \n\n"),
    ("play w a1", "= \n\n"),
    ("printsgf", "= (;FF[4]GM[11]SZ[3];B[b2];W[a1])\n\n"),
    ("reg_genmove red", "? syntax error\n\n"),
    ("reg_genmove", "? syntax error\n\n"),
    # Black's stone joins both edges already, by b1 or c1 above and by a3 or b3 below: each of his moves wins.
    ("3 reg_genmove b", "=3 c2\n\n"),
    ("mustplay-cells", "= c2\n\n"),
    ("search-visits", "? no search\n\n"),
    ("printsgf", "= (;FF[4]GM[11]SZ[3];B[b2];W[a1])\n\n"),
    ("known_command", "? syntax error\n\n"),
    ("2147483648 komi 6.5", "? unknown command\n\n"),
    ("loadsgf {folder}/a  game.sgf # with two spaces", "= \n\n"),
    ("printsgf", "= (;FF[4]GM[11]SZ[2];B[a2])\n\n"),
    ("loadsgf {folder}/no game.sgf", "? cannot load file\n\n"),
    ("loadsgf {folder}/a  game.sgf/x", "? read fault\n\n"),
    ("loadsgf {folder}/a pipe", "? read fault\n\n"),
    ("loadsgf {folder}/a text", "? cannot load file: it is no record of a game\n\n"),
    ("loadsgf {folder}/cut.sgf", "? cannot load file: it breaks off in the record\n\n"),
    ("loadsgf {folder}/large.sgf", "? cannot load file: size 14: hexd plays 1 to 11\n\n"),
    ("loadsgf {folder}/wrong.sgf", "? cannot load file: move 2 is illegal: White b2, for there is a stone on it\n\n"),
    ("loadsgf {folder}", "? read fault\n\n"),
    ("printsgf", "= (;FF[4]GM[11]SZ[2];B[a2])\n\n"),
    # Up to the position before a move.
    ("loadsgf {folder}/other.sgf 3", "= \n\n"),
    ("printsgf", "= (;FF[4]GM[11]SZ[3];B[b1];W[swap-pieces])\n\n"),
    ("loadsgf {folder}/a  game.sgf 1", "= \n\n"),
    ("printsgf", "= (;FF[4]GM[11]SZ[2])\n\n"),
    ("loadsgf {folder}/other.sgf 9", "? cannot load file: it has no move 9: its moves are 1 to 3\n\n"),
    ("loadsgf {folder}/other.sgf 0", "? cannot load file: it has no move 0: its moves are 1 to 3\n\n"),
    ("loadsgf {folder}/empty.sgf 2", "? cannot load file: it has no move 2: it has none\n\n"),
    ("loadsgf {folder}/none 0", "? cannot load file\n\n"),
    ("printsgf", "= (;FF[4]GM[11]SZ[2])\n\n"),
    ("loadsgf {folder}/other.sgf 4", "= \n\n"),
    ("printsgf", "= (;FF[4]GM[11]SZ[3];B[b1];W[swap-pieces];B[c3])\n\n"),
    ("loadsgf {folder}/game 2", "= \n\n"),
    ("printsgf", "= (;FF[4]GM[11]SZ[1];B[a1])\n\n"),
    ("loadsgf {folder}/other.sgf", "= \n\n"),
    ("printsgf", "= (;FF[4]GM[11]SZ[3];B[b1];W[swap-pieces];B[c3])\n\n"),
    ("loadsgf {folder}/a  game.sgf", "= \n\n"),
    ("loadsgf", "? syntax error\n\n"),
    ("printsgf", "= (;FF[4]GM[11]SZ[2];B[a2])\n\n"),
    # Moves of a row are played together, or none is.
    ("boardsize 3", "= \n\n"),
    ("gogui-play_sequence b c2 White Swap B a1", "= \n\n"),
    ("printsgf", "= (;FF[4]GM[11]SZ[3];B[c2];W[swap-pieces];B[a1])\n\n"),
    ("gogui-play_sequence w c3 b c3", "? illegal move\n\n"),
    ("gogui-play_sequence w", "? syntax error\n\n"),
    ("gogui-play_sequence w c3 red c2", "? syntax error\n\n"),
    ("gogui-play_sequence w c3 b 3", "? syntax error\n\n"),
    ("gogui-play_sequence", "= \n\n"),
    ("printsgf", "= (;FF[4]GM[11]SZ[3];B[c2];W[swap-pieces];B[a1])\n\n"),
    ("is_legal w a1", "= 0\n\n"),
    ("is_legal w c3", "= 1\n\n"),
    ("is_legal w swap", "= 0\n\n"),
    ("is_legal w z9", "= 0\n\n"),
    ("is_legal w", "? syntax error\n\n"),
    ("is_legal w 3", "? syntax error\n\n"),
    ("undo 4", "? cannot undo\n\n"),
    ("undo x", "? syntax error\n\n"),
    ("undo 1 1", "? syntax error\n\n"),
    ("undo 0", "= \n\n"),
    ("undo 2", "= \n\n"),
    ("printsgf", "= (;FF[4]GM[11]SZ[3];B[c2])\n\n"),
    ("is_legal w swap", "= 1\n\n"),
    ("play w resign", "= \n\n"),
    ("is_legal w swap", "= 0\n\n"),
    ("undo 3", "? cannot undo\n\n"),
    ("final_score", "= B+R\n\n"),
    ("undo 2", "= \n\n"),
    ("printsgf", "= (;FF[4]GM[11]SZ[3])\n\n"),
    ("final_score", "? cannot score\n\n"),
    # A position has no history.
    ("set_position b c3 WHITE A1 b a2", "= \n\n"),
    ("printsgf", "= (;FF[4]GM[11]SZ[3]AB[a2][c3]AW[a1])\n\n"),
    ("undo", "? cannot undo\n\n"),
    ("set_position b c3 w c3", "? illegal position\n\n"),
    ("set_position b d4", "? illegal position\n\n"),
    ("set_position b", "? syntax error\n\n"),
    ("set_position b swap", "? syntax error\n\n"),
    ("set_position b a1]W[b2", "? syntax error\n\n"),
    ("savesgf {folder}/a saved game.sgf", "= \n\n"),
    ("savesgf {folder}/none/x", "? cannot write file\n\n"),
    ("savesgf {folder}/a pipe", "? cannot write file\n\n"),
    ("savesgf {folder}", "? cannot write file\n\n"),
    ("savesgf", "? syntax error\n\n"),
    ("set_position", "= \n\n"),
    ("printsgf", "= (;FF[4]GM[11]SZ[3])\n\n"),
    ("loadsgf {folder}/a saved game.sgf", "= \n\n"),
    ("printsgf", "= (;FF[4]GM[11]SZ[3]AB[a2][c3]AW[a1])\n\n"),
    ("solve-state red", "? syntax error\n\n"),
    ("solve-state w", "? not to move\n\n"),
    ("gogui-play_sequence b b2 w b1 b c1 w a3 b b3", "= \n\n"),
    ("solve-state w", "= black\n\n"),
    ("is_legal w c2", "= 0\n\n"),
    ("param_hexd seed", "? syntax error\n\n"),
    ("param_hexd depth 3", "? syntax error\n\n"),
    ("param_hexd workers 65", "? syntax error\n\n"),
    ("param_hexd workers 0", "? syntax error\n\n"),
    ("param_hexd strength none", "? syntax error\n\n"),
    # One byte that is no text.
    ("param_hexd strength \udcff", "? syntax error\n\n"),
    ("param_hexd seed 5", "= \n\n"),
    ("quit now", "? syntax error\n\n"),
    ("quit", "= \n\n"),
    # Behind it no command is answered, whoever would.
    ("komi 6.5", ""),
    ("savesgf {folder}/kept.sgf", ""),
    ("name", ""),
]

GAME = "".join(f"{2 * n} genmove b\n{2 * n + 1} genmove w\nmustplay\nsearch-report\nwincert\n" for n in range(13))
# Sessions that have the same answers, status and lines on standard error with the filter and without it, but for swaps.
SAME = [
    (GAME.encode() + b"printsgf\n", ["--size", "5", "--playouts", "500"]),
    (GAME.encode() + b"printsgf\n", ["--size", "4", "--playouts", "500", "--hsearch", "off", "--seed=7"]),
    (b"1 na\0me\r\n\r\n # no command\n\tname\t#\x7f\n0000000007 version\n", SMALL),
    (b"99999999999 name\n12\n 5 \n\nn\xe4me\nplay b z9\nplay b\nplay red resign\nundo\nlist_commands 1\n", SMALL),
    (b"name" + b" " * 4092 + b"\nname" + b" " * 4093 + b"\n#" + b"x" * 70000 + b"\nname\n", SMALL),
    (b"name\nquit\nname\n", SMALL),
    (b"name\nversion", SMALL),
    (b"name\n" + b"x" * 5000, SMALL),
    (b"", SMALL),
]
NO_SWAP = ["--swap", "off"]
# What ends it from outside.
ENDING = (signal.SIGTERM, signal.SIGHUP, signal.SIGINT)


def run(program, words, given):
    done = subprocess.run(program + words, input=given, capture_output=True, timeout=LIMIT)
    return done.returncode, done.stdout, done.stderr


def heed_signals():
    for number in ENDING:
        signal.signal(number, signal.SIG_DFL)


def start(words, **streams):
    """A session of the filter whose input is left open, and the id of its hexd, which has answered once."""
    # Who runs the tests by nohup, or behind a shell's `&`, has some signals ignored, which a program would go on with.
    pipe = subprocess.PIPE
    process = subprocess.Popen(WITH + words, stdin=pipe, stdout=pipe, preexec_fn=heed_signals, **streams)
    process.stdin.write(b"name\n")
    process.stdin.flush()
    process.stdout.read(len("= hexd\n\n"))
    children = Path(f"/proc/{process.pid}/task/{process.pid}/children").read_text().split()
    return process, int(children[0])


def rows_fault():
    """What differs in the session of rows."""
    with tempfile.TemporaryDirectory() as folder:
        Path(folder, "a  game.sgf").write_text("(;GM[11]SZ[2];B[a2])")
        Path(folder, "game 2").write_text("(;GM[11]SZ[1];B[a1])")
        Path(folder, "a text").write_text("no record")
        Path(folder, "empty.sgf").write_text("(;GM[11]SZ[2])")
        Path(folder, "cut.sgf").write_text("(;SZ[3];B[a1];W[b2")
        Path(folder, "large.sgf").write_text("(;SZ[14];B[a1])")
        Path(folder, "wrong.sgf").write_text("(;SZ[3];B[b2];W[B2])")
        # As another program may write it: text before it, capitals, cells in two letters, a pass at the end.
        Path(folder, "other.sgf").write_text("\ufeffGame 1 (;SZ[3];B[B1];W[Swap];B[cc];W[])")
        os.mkfifo(Path(folder, "a pipe"))
        kept = Path(folder, "kept.sgf")
        kept.write_text("kept")
        given = "".join(command + "\n" for command, _ in ROWS).format(folder=folder)
        status, got, errors = run(WITH, SMALL, given.encode(errors="surrogateescape"))
        if kept.read_text() != "kept":
            return f"the rows: a file that is saved behind `quit` has {kept.read_text()!r}"
    want = "".join(answer for _, answer in ROWS)
    if (status, got.decode(), errors) != (0, want, b""):
        return f"the rows: status {status}, {errors}, and for what it wrote of them:\n{got.decode()}"
    return None


def same_faults():
    """The sessions that differ with the filter and without it."""
    for given, words in SAME:
        with_it, without = run(WITH, words + NO_SWAP, given), run(WITHOUT, words, given)
        if with_it != without:
            yield f"{given[:60]} {words}: with it {with_it}, without {without}"


# Takes half a second of the processor for a check, and becomes hexd.
BUSY = """#!/usr/bin/env python3
import os, sys, time
while sys.argv[1] == "check" and time.process_time() < 0.5:
    pass
os.execv({hexd!r}, sys.argv)
"""


def time_fault():
    """Whether the processor's time of other processes counts: a certificate says that White swaps, and is checked."""
    with tempfile.TemporaryDirectory() as folder:
        busy = Path(folder, "hexd")
        busy.write_text(BUSY.format(hexd=str(BIN / "hexd")))
        busy.chmod(0o755)
        done = subprocess.run(
            WITH + ["--size", "5"],
            input=b"play b c3\ngenmove w\ncputime\n",
            capture_output=True,
            timeout=LIMIT,
            env={**os.environ, "HEXD": str(busy)},
        )
    _, move, spent, _ = done.stdout.decode().split("\n\n")
    return None if move == "= swap-pieces" and float(spent[2:]) >= 0.5 else f"the processor's time: {done}"


PARAMETERS = "[list/quick/normal/strong] strength {}\n[string] seconds {}\n[string] nodes {}\n[string] seed {}\n[string] workers {}"
# What the filter says of its parameters, and how it starts hexd then: its words, and what is set between.
PARAMETER_ROWS = [
    (["--size=11"], "", ("normal", 0, 250, 0, 1), {"look": "250", "playouts": "1000", "weight": "0"}),
    (["--size=5", "--strength=quick", "--seed=7"], "nodes 9;workers 2;seed 3", ("quick", 0, 9, 3, 2), {"look": "9", "seed": "3", "workers": "2"}),
    (["--look=3"], "strength strong", ("strong", 0, 2000, 0, 1), {"look": "2000"}),
    (["--playouts=30"], "seconds 9", ("none", 9, 0, 0, 1), {"playouts": "30", "look": None}),
]


def parameter_faults():
    """What parameters say, and that hexd is started so."""
    for words, lines, said, options in PARAMETER_ROWS:
        process, _ = start(words)
        for line in lines.split(";") if lines else []:
            process.stdin.write(f"param_hexd {line}\n".encode())
        process.stdin.write(b"param_hexd\n")
        process.stdin.flush()
        lost = "= \n\n" * (lines.count(";") + 1 if lines else 0)
        want = lost + "= " + PARAMETERS.format(*said) + "\n\n"
        got = process.stdout.read(len(want)).decode()
        [hexd] = Path(f"/proc/{process.pid}/task/{process.pid}/children").read_text().split()
        command = Path(f"/proc/{hexd}/cmdline").read_text().split("\0")
        asked = dict(word[2:].split("=") for word in command if word.startswith("--"))
        process.communicate(timeout=LIMIT)
        if got != want or not all(asked.get(name) == value for name, value in options.items()):
            yield f"{words}, param_hexd {lines}: {got}, and {command}"


def solved_fault():
    """Whether the solver says who wins, with what it came to on standard error."""
    status, got, errors = run(WITH, ["--size", "4"], b"play b a1\nsolve-state w\nsolve-state\nundo\nsolve-state b\n")
    lines = r"(?:hexd-gtp: solve-state: (?:unknown \d+|won \w+), with up to \d+ positions\n)+"
    if (status, got) != (0, b"= \n\n= white\n\n= white\n\n= \n\n= black\n\n") or not re.fullmatch(lines, errors.decode()):
        return f"who wins: {status}, {got}, {errors}"
    return None


def files_faults():
    """A file of options, in the place of which those of the command line stand; and one to which lines are added."""
    with tempfile.TemporaryDirectory() as folder:
        config, log = Path(folder, "a config"), Path(folder, "a log")
        config.write_text("# options\n\nsize 4\n --swap = off # for a driver\nresign 0\nplayouts=9")
        words = ["--config", str(config), f"--log={log}", "--playouts", "7"]
        _, got, _ = run(WITH, words, b"printsgf\nplay b a1\nplay w swap-pieces\n\nna\0me # x\n")
        process, _ = start(words)
        [hexd] = Path(f"/proc/{process.pid}/task/{process.pid}/children").read_text().split()
        command = Path(f"/proc/{hexd}/cmdline").read_text().split("\0")[2:-1]
        process.communicate(timeout=LIMIT)
        if not got.startswith(b"= (;FF[4]GM[11]SZ[4])") or sorted(command) != ["--playouts=7", "--size=4"]:
            yield f"a file of options: {got}, {command}"
        want = "> printsgf\n< = (;FF[4]GM[11]SZ[4])\n< \n> play b a1\n< = \n< \n> play w swap-pieces\n< = \n< \n> \n> na\0me # x\n< = hexd\n< \n> name\n< = hexd\n< \n"
        if log.read_text() != want:
            yield f"a file of lines: {log.read_text()!r}"
        for wrong, why in (
            ("size 12", "--size takes a number from 1 to 11, and '12' is none"),
            ("depth 3", "there is no option '--depth'"),
            ("size 3\nsize 4", "--size stands here twice"),
            ("swap", "--swap takes on or off, and '' is none of these"),
            ("config other", "the file of --config names no further one"),
            ("size 3\n--config=other", "the file of --config names no further one"),
        ):
            config.write_text(wrong)
            status, got, errors = run(WITH, ["--config", str(config)], b"name\n")
            if (status, got) != (2, b"") or not errors.decode().startswith(f"hexd-gtp: {why} ("):
                yield f"a file of options, {wrong!r}: {status}, {got}, {errors}"
    for words, want in (
        (["--config", "/nowhere"], (2, "hexd-gtp: --config takes a file, and '/nowhere' can't be read (")),
        (["--config"], (2, "hexd-gtp: --config takes a value, a text of at least one byte, and nothing follows it (")),
        (["--log", "/nowhere/x"], (4, "hexd-gtp: /nowhere/x: No such file or directory")),
    ):
        status, got, errors = run(WITH, words, b"name\n")
        if (status, got, errors.decode()[: len(want[1])]) != (want[0], b"", want[1]):
            yield f"{words}: {status}, {got}, {errors}"


def seed_fault():
    """Whether a seed that is set counts as one on the command line, from the game as it was."""
    words = ["--size", "5", "--playouts", "300", "--hsearch", "off"]
    moves, asked = b"play b c3\nplay w b2\n", b"genmove b\nsearch-report\ngenmove w\nsearch-report\n"
    _, got, _ = run(WITH, words + ["--seed", "3"], moves + b"genmove w\nundo\nset_random_seed 9\n" + asked)
    _, want, _ = run(WITHOUT, words + ["--seed", "9"], moves + asked)
    _, other, _ = run(WITHOUT, words + ["--seed", "3"], moves + asked)
    answers = [text.split(b"\n\n")[-5:] for text in (got, want, other)]
    return None if answers[0] == answers[1] != answers[2] else f"a seed that is set: {answers}"


def trace_fault():
    """Whether traces stay when a new hexd would empty their file."""
    with tempfile.TemporaryDirectory() as folder:
        words = SMALL + ["--trace", f"{folder}/t"]
        _, got, _ = run(WITH, words, b"set_random_seed 9\nname\n")
    return None if got == b"? cannot set the seed beside --trace\n\n= hexd\n\n" else f"a seed beside --trace: {got}"


def lists_fault():
    """Whether what it lists is known, and its menu has no other command."""
    names = run(WITHOUT, SMALL, b"list_commands\n")[1][2:-2].split(b"\n")
    mine = run(WITH, SMALL, b"list_commands\n")[1][2:-2].split(b"\n")
    menu = run(WITH, SMALL, b"hexgui-analyze_commands\n")[1][2:-2].split(b"\n")
    known = run(WITH, SMALL, b"".join(b"known_command %s\n" % name for name in mine))[1]
    lost = [entry for entry in menu if entry.split(b"/")[2].split()[0] not in mine]
    lost += [form for form in (b"plist", b"pspairs", b"varc", b"var") if not any(entry.startswith(form + b"/") for entry in menu)]
    for name in (b"help", b"gogui-analyze_commands"):
        same = {b"help": mine, b"gogui-analyze_commands": menu}[name]
        lost += [] if run(WITH, SMALL, name + b"\n")[1][2:-2].split(b"\n") == same else [name]
    if mine[: len(names)] != names or len(set(mine)) != len(mine) or lost or known != b"= true\n\n" * len(mine):
        return f"the lists: {mine}, {menu}, {known}"
    return None


def search_fault():
    """Whether a genmove that is taken back is the one that is played, with its search in the forms of a menu."""
    words = ["--size", "5", "--playouts", "300", "--hsearch", "off"]
    _, got, _ = run(WITH, words + NO_SWAP, b"reg_genmove b\nsearch-visits\nmustplay-cells\nprintsgf\ncputime\n")
    _, want, _ = run(WITHOUT, words, b"genmove b\nsearch-report\n")
    (move, visits, cells, record, spent), (same, report) = (
        [answer[2:].decode() for answer in text.split(b"\n\n")[:-1]] for text in (got, want)
    )
    rows = [line.split() for line in report.splitlines()[1:]]
    shown = " ".join(f"{vertex} {count}" for vertex, count, _ in rows if count != "0")
    names = " ".join(vertex for vertex, *_ in rows)
    if (move, visits, cells, record) != (same, shown, names, "(;FF[4]GM[11]SZ[5])") or not re.fullmatch(r"\d+\.\d\d", spent):
        return f"a move that is taken back: {got}, and {want}"
    return None


def look_fault():
    """Whether a menu shows what the look-ahead found, which chose the cell, and nothing of cells without a walk."""
    words = ["--size", "7", "--playouts", "100", "--look", "10"]
    _, got, _ = run(WITH, words + NO_SWAP, b"genmove b\nlook-report\nsearch-visits\nlook-worths\n")
    move, report, visits, worths = (answer[2:].decode() for answer in got.split(b"\n\n")[:-1])
    rows = [line.split() for line in report.splitlines()[1:]]
    walked = [(row[0], row[1]) for row in rows if row[1] != "0"]
    pairs = dict(zip(worths.split()[::2], worths.split()[1::2]))
    shown = {row[0]: (re.findall("won|lost", " ".join(row)) or [row[2]])[0] if row[1] != "0" else "-" for row in rows}
    if visits.split() != [word for row in walked for word in row] or len(walked) < 2 or move not in dict(walked) or pairs != shown:
        return f"what the look-ahead found: {visits}; {worths}; of {report}"
    # A cell that is proved says so; one that is proved to win is certified.
    words = ["--size", "5", "--playouts", "100", "--look", "50"]
    _, got, _ = run(WITH, words, b"play b e4\nplay w e3\nplay b e1\ngenmove w\nlook-worths\n")
    if not re.search(rb"\bd3 lost\b", got):
        return f"moves that the look-ahead refutes: {got}"
    _, got, _ = run(WITH, words, b"play b d1\nplay w b3\nplay b a4\ngenmove w\nmustplay\nlook-worths\n")
    if not got.endswith(b"= c2\n\n= win c2\n\n? no look\n\n"):
        return f"a move that the look-ahead proves: {got}"
    return None


# The kinds of the values that JSON has of a look-ahead, and of each of its cells.
LOOK_KINDS = {"move": str, "nodes": int, "cells": list}
CELL_KINDS = {"cell": str, "walks": int, "worth": (int, type(None)), "proved": (str, type(None)), "line": list}


def json_fault():
    """Whether JSON has what `look-report` says, and no less or more."""
    for words, lines in ((["--size", "2", "--look", "3"], "play b a2\ngenmove w\n"), (["--size", "7", "--look", "10"], "genmove b\n")):
        _, got, _ = run(WITH, [*words, "--playouts", "5", *NO_SWAP], f"{lines}look-report\nhexd-look_json\n".encode())
        move, report, answer = (text[2:] for text in got.decode().split("\n\n")[-4:-1])
        head, *rows = map(str.split, report.splitlines())
        cells = [dict(zip(CELL_KINDS, cell_of(*row))) for row in rows]
        want = {"move": move, "nodes": int(head[1]), "cells": cells}
        found = json.loads(answer)
        is_whole = answer == json.dumps(want, separators=(",", ":")) and any(cell["walks"] for cell in found["cells"])
        if not is_whole or not has_kinds(found, LOOK_KINDS) or not all(has_kinds(cell, CELL_KINDS) for cell in found["cells"]):
            return f"the look-ahead as JSON: {answer}, of {report}"
    _, got, _ = run(WITH, SMALL, b"hexd-look_json\nhexd-look_json x\n")
    return None if got == b"? no look\n\n? syntax error\n\n" else f"no look-ahead as JSON: {got}"


def cell_of(cell, walks, worth, *more):
    """The values of JSON for a row of `look-report`."""
    proved, _, line = " ".join(more).partition("line ")
    return cell, int(walks), int(worth) if walks != "0" else None, proved.strip() or None, line.split()


def has_kinds(value, kinds):
    """Whether an object has these keys, in this order, with values of these kinds."""
    return [*value] == [*kinds] and all(isinstance(value[key], kind) for key, kind in kinds.items())


def line_fault():
    """Whether the main line is what hexd plays against itself, and leaves the game alone."""
    words = ["--size", "5", "--playouts", "300", "--hsearch", "off", "--seed", "3"]
    _, got, _ = run(WITH, words, b"play b c3\nhexd-main_line 3\nprintsgf\nmustplay\nhexd-main_line 0\nhexd-main_line x\n")
    _, want, _ = run(WITHOUT, words, b"play b c3\ngenmove w\ngenmove b\ngenmove w\n")
    moves = [text[2:].decode() for text in want.split(b"\n\n")[1:4]]
    said = " ".join(f"{colour} {cell}" for colour, cell in zip("wbw", moves))
    if got.decode() != f"= \n\n= {said}\n\n= (;FF[4]GM[11]SZ[5];B[c3])\n\n? no search\n\n= \n\n? syntax error\n\n":
        return f"the main line: {got}, and hexd plays {want}"
    _, got, _ = run(WITH, ["--size", "2"], b"play b a2\nhexd-main_line\nplay b a1\nhexd-main_line\n")
    if not re.fullmatch(rb"= \n\n= w \w\w b \w\w\n\n= \n\n\? game over\n\n", got):
        return f"the main line to the end of a game: {got}"
    return None


def areas_fault():
    """Whether a menu shows the cells of threats, and of a certificate."""
    _, got, _ = run(WITH, ["--size", "2", "--playouts", "1"] + NO_SWAP, b"play b a2\ngenmove w\nthreat-cells\nthreat-cells 2\nthreat-cells 3\n")
    _, cells, _ = run(WITH, ["--size", "2", "--playouts", "1"] + NO_SWAP, b"wincert-cells\ngenmove b\nwincert-cells\nthreat-cells\nthreat-cells 1\n")
    if got.decode().split("\n\n")[2:5] != ["= a1 b1", "= b1", "? no such threat"]:
        return f"the cells of threats: {got}"
    if cells.decode().split("\n\n")[:-1] != ["? no certificate", "= a2", "= a1 b1 a2", "= ", "? no such threat"]:
        return f"the cells of a certificate: {cells}"
    return None


def ending_faults():
    """The endings that differ: hexd is killed or has no memory, a pipe closes, the input is too long, a write fails."""
    process, hexd = start(SMALL)
    os.kill(hexd, 9)
    if process.wait(LIMIT) != 128 + 9:
        yield f"hexd was killed: status {process.returncode}"
    process, hexd = start(LARGE, stderr=subprocess.PIPE)
    resource.prlimit(hexd, resource.RLIMIT_AS, (1 << 26, 1 << 26))
    process.stdin.write(b"play b a1\ngenmove w\nname\n")
    process.stdin.flush()
    got, errors = process.communicate(timeout=LIMIT)
    if (process.returncode, got, errors) != (5, b"= \n\n", b"hexd: out of memory\n"):
        yield f"out of memory: status {process.returncode}, {got}, {errors}"
    process, _ = start(SMALL)
    process.stdout.close()
    process.stdin.write(b"showboard\n")
    process.stdin.flush()
    if process.wait(LIMIT) != 4:
        yield f"a reader that went: status {process.returncode}"
    process, hexd = start(SMALL)
    process.stdin.close()
    if process.wait(LIMIT) != 0 or Path(f"/proc/{hexd}").exists():
        yield f"a driver that went: status {process.returncode}"
    with open("/dev/zero", "rb") as zeros, open("/dev/full", "wb") as full:
        done = subprocess.run(WITH + SMALL, stdin=zeros, capture_output=True, timeout=LIMIT)
        if (done.returncode, done.stdout, done.stderr) != (6, b"", b"hexd: input too long\n"):
            yield f"a line without end: {done}"
        done = subprocess.run(WITH + SMALL, input=b"name\n", stdout=full, timeout=LIMIT)
        if done.returncode != 4:
            yield f"a full disk: status {done.returncode}"


def is_running(process):
    try:
        return Path(f"/proc/{process}/stat").read_text().rpartition(")")[2].split()[0] != "Z"
    except OSError:
        return False


def children_of(process):
    """The processes that a process has begun."""
    try:
        return list(map(int, Path(f"/proc/{process.pid}/task/{process.pid}/children").read_text().split()))
    except OSError:
        return []


def killed_fault():
    """Whether hexd ends at once when the filter is killed, which can do nothing then: one that is stopped meets no end of its
    input."""
    process, hexd = start(SMALL)
    os.kill(hexd, signal.SIGSTOP)
    process.kill()
    process.wait(LIMIT)
    end = time.monotonic() + LIMIT / 10
    while is_running(hexd) and time.monotonic() < end:
        time.sleep(0.01)
    if is_running(hexd):
        os.kill(hexd, signal.SIGKILL)
        return "hexd goes on when the filter is killed"
    return None


def lonely_fault():
    """Whether it ends with its solver, whatever time that has, once nobody is left to read what it finds."""
    process, hexd = start(["--size", "9"], stderr=subprocess.DEVNULL)
    process.stdin.write(b"solve-state\n")
    process.stdin.flush()
    while len(begun := children_of(process)) < 2 and process.poll() is None:
        time.sleep(0.01)
    process.stdout.close()
    with contextlib.suppress(subprocess.TimeoutExpired):
        process.wait(LIMIT / 4)
    left = [one for one in (process.pid, *begun, *children_of(process)) if is_running(one)]
    process.kill()
    process.communicate()
    return f"a solver that nobody hears: {left} of {process.pid} and {begun} go on" if left or len(begun) < 2 else None


def unsaved_fault():
    """Whether a file stays as it was if hexd can't say what it is to have. Both are seen at once: that hexd ended, and the line."""
    with tempfile.TemporaryDirectory() as folder:
        file = Path(folder, "kept.sgf")
        file.write_text("kept")
        process, hexd = start(SMALL)
        process.send_signal(signal.SIGSTOP)
        os.kill(hexd, signal.SIGKILL)
        process.stdin.write(b"savesgf %s\n" % bytes(file))
        process.stdin.flush()
        process.send_signal(signal.SIGCONT)
        process.communicate(timeout=LIMIT)
        return None if file.read_text() == "kept" else f"a record that can't be saved: the file has {file.read_text()!r}"


def signal_faults():
    """Whether a signal ends hexd too, at once: one that is stopped answers nothing, and meets no end of its input."""
    for number in ENDING:
        process, hexd = start(SMALL)
        os.kill(hexd, signal.SIGSTOP)
        process.stdin.write(b"name\n")
        process.stdin.flush()
        process.send_signal(number)
        status, end = process.wait(LIMIT), time.monotonic() + LIMIT / 10
        while is_running(hexd) and time.monotonic() < end:
            time.sleep(0.01)
        if status != -number or is_running(hexd):
            yield f"signal {number}: status {status}, and hexd {'goes on' if is_running(hexd) else 'has ended'}"
            os.kill(hexd, signal.SIGKILL)


# What HEXD names, with what is said of it and the status.
WRONG_PROGRAMS = [
    ("/nowhere/hexd", "No such file or directory", 125),
    ("/", "Permission denied", 125),
    ("/bin/true", "it doesn't answer as hexd does, and ends with status 0", 125),
    ("/bin/cat", "it doesn't answer as hexd does, and ends with status 1", 1),
]


def start_faults():
    """What is said, in one line of the filter's, if there is no hexd."""
    for program, why, want in WRONG_PROGRAMS:
        done = subprocess.run(WITH, input=b"name\n", capture_output=True, timeout=LIMIT, env={**os.environ, "HEXD": program})
        line = f"hexd-gtp: hexd can't be started: {program}: {why}\n"
        if (done.returncode, done.stdout) != (want, b"") or done.stderr.decode().splitlines(True)[-1:] != [line]:
            yield f"HEXD is {program}: {done}"


def stream_faults():
    """The closed streams, folders and full disks with which it ends otherwise than hexd."""
    for streams in ("<&-", ">&-", "<&- >&-", "</", ">/dev/full", "2>&-"):
        with_it, without = (
            run(["bash", "-c", f'exec "$@" {streams}', "bash"] + program, SMALL, b"name\n")[:2]
            for program in (WITH, WITHOUT)
        )
        if with_it != without:
            yield f"{streams}: with it {with_it}, without {without}"


def limits_fault():
    """Whether hexd has limits of memory and of the processor's time, which begins anew with each line."""
    process, hexd = start([*SMALL, "--workers", "2"])
    kinds = (resource.RLIMIT_AS, resource.RLIMIT_CPU)
    before = [resource.prlimit(hexd, kind)[0] for kind in kinds]
    resource.prlimit(hexd, resource.RLIMIT_CPU, (1000, resource.RLIM_INFINITY))
    process.stdin.write(b"name\n")
    process.stdin.flush()
    process.stdout.read(len("= hexd\n\n"))
    after = [resource.prlimit(hexd, kind)[0] for kind in kinds]
    process.communicate(timeout=LIMIT)
    return None if before == after == [(4 << 30) + 2 * (1 << 27), 2 * 86_400] else f"the limits of hexd: {before}, {after}"


def unheard_faults():
    """Whether it goes on if standard error is closed or full, and its own lines are lost."""
    given = b"time_settings 9 0 0\nplay b b2\nsolve-state\nundo\ngenmove b\nname\n"
    for stream in ("2>&-", "2>/dev/full"):
        shell = ["bash", "-c", f'exec "$@" {stream}', "bash"]
        status, got, _ = run(shell + WITH, ["--size", "3", *NO_SWAP], given)
        if (status, got) != (0, b"= \n\n= \n\n= black\n\n= \n\n= b2\n\n= hexd\n\n"):
            yield f"{stream}, with lines of its own: {status}, {got}"


def main():
    single = [rows_fault(), time_fault(), solved_fault(), seed_fault(), trace_fault(), lists_fault(), search_fault(), look_fault(), areas_fault(), killed_fault()]
    single += [json_fault(), line_fault(), limits_fault(), lonely_fault(), unsaved_fault()]
    parts = [same_faults(), stream_faults(), unheard_faults(), ending_faults(), signal_faults(), start_faults()]
    parts += [parameter_faults(), files_faults()]
    parts += [test_moves.faults(WITH), test_analysis.faults(WITH), test_ponder.faults(WITH), test_match.faults()]
    faults = [fault for fault in single if fault] + [fault for part in parts for fault in part]
    for fault in faults:
        print(f"gtp/test.py: {fault}")
    return 1 if faults else 0


if __name__ == "__main__":
    sys.exit(main())
