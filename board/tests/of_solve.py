"""bin/hexd-solve as a user runs it: what it writes, what it says meanwhile, and how it ends."""

import json
import os
import re
import signal
import subprocess
import sys
import tempfile
import unittest
from pathlib import Path

from tests.support import LIMIT_SECONDS, ROOT, dying, first_line, is_running, unheard, until

import hexd
import limits
import objects

SOLVE = ROOT / "bin/hexd-solve"
# Larger than what it can solve here.
EMPTY = "(;GM[11]SZ[11])"


def ran(*words, given=""):
    return subprocess.run([SOLVE, *words], input=given, capture_output=True, text=True, timeout=LIMIT_SECONDS)


class Solving(unittest.TestCase):
    def test_its_text_is_that_of_hexd_solve(self):
        for record in ("(;GM[11]SZ[4];B[b2])", "(;GM[11]SZ[5];B[a1];W[c3])", "(;GM[11]SZ[2]AB[b2])", "(;GM[11]SZ[1];B[a1])"):
            run = ran(given=record)
            self.assertEqual((0, hexd.Solver().answer(record.encode())), (run.returncode, run.stdout), run.stderr)
            last = run.stderr.splitlines()[-1]
            self.assertRegex(last, r"^hexd-solve: (won|over) \w+, with up to [0-9,]+ positions, after \d+\.\d s$")

    def test_budgets_grow_to_the_largest(self):
        run = ran("--hsearch", "off", "--budget", "2000", "-", given="(;GM[11]SZ[6])")
        self.assertEqual((0, "unknown 2000\n"), (run.returncode, run.stdout))
        self.assertEqual(["100", "400", "1,600", "2,000"], re.findall("with up to ([0-9,]+) positions", run.stderr))

    def test_a_record_of_another_program(self):
        with tempfile.TemporaryDirectory() as folder:
            file = Path(folder) / "a game.sgf"
            file.write_text("Game 1 (;SZ[3];B[B2];W[swap];B[a1];W[resign])")
            run = ran(file)
            self.assertEqual((0, "won white"), (run.returncode, run.stdout.partition("\n")[0]))
            self.assertIn("hexd-solve: White resigns at move 4.\n", run.stderr)

    def test_json(self):
        """The same as one line, of which keys and kinds stay."""
        kinds = {"answer": str, "winner": (str, type(None)), "budget": int, "lines": (int, type(None)),
                 "certificate": (str, type(None)), "stopped": bool}
        for record, words, answer, winner, budget in (
            ("(;GM[11]SZ[4];B[b2])", [], "won", "white", 100),
            ("(;GM[11]SZ[1];B[a1])", [], "over", "black", 100),
            ("(;GM[11]SZ[5])", ["--hsearch=off", "--budget=2"], "unknown", None, 2),
        ):
            text = hexd.Solver(budget, words=[word for word in words if "hsearch" in word]).answer(record.encode())
            want = dict(zip(kinds, (answer, winner, budget, None, text.partition("\n")[2] or None, False)))
            run = ran("--json", *words, given=record)
            self.assertEqual((0, json.dumps(want, separators=(",", ":")) + "\n"), (run.returncode, run.stdout), run.stderr)
            found = json.loads(run.stdout)
            self.assertTrue(all(isinstance(found[key], kind) for key, kind in kinds.items()), found)
            self.assertEqual(answer == "won", bool(found["certificate"]))

    def test_json_of_what_is_rare(self):
        """No game, a certificate that is too long, and a search that is stopped before anything is known."""
        for said, want in (
            ("not a game\n", ("not a game", None, None)),
            ("too long black 18446744073709551615\n", ("too long", "black", 2**64 - 1)),
            ("", (None, None, None)),
        ):
            found = objects.solved(said, None, not said)
            self.assertEqual(want, (found["answer"], found["winner"], found["lines"]))
            self.assertEqual((None, None, not said), (found["budget"], found["certificate"], found["stopped"]))

    def test_what_it_refuses(self):
        for words, given, status, said in (
            (["none.sgf"], "", 1, "hexd-solve: none.sgf: No such file or directory\n"),
            ([], "no record", 1, "hexd-solve: -: it is no record of a game\n"),
            (["--budget=0"], "", 2, None),
            (["--program", "/bin/true"], EMPTY, 1, None),
            (["--program", "/nowhere"], EMPTY, 1, "hexd-solve: /nowhere: No such file or directory\n"),
        ):
            run = ran(*words, given=given)
            self.assertEqual((status, ""), (run.returncode, run.stdout))
            self.assertEqual(1, len(run.stderr.splitlines()))
            if said:
                self.assertEqual(said, run.stderr)
        with open("/dev/full", "w") as full:
            run = subprocess.run([SOLVE], input=b"(;SZ[2])", stdout=full, stderr=subprocess.PIPE, timeout=LIMIT_SECONDS)
        self.assertEqual(1, run.returncode)
        self.assertTrue(run.stderr.endswith(b"hexd-solve: standard output: No space left on device\n"))

    def test_a_reader_that_has_gone(self):
        """It ends as others in a pipe do, and says nothing of it."""
        reader, writer = os.pipe()
        os.close(reader)
        with open(writer, "wb") as gone:
            run = subprocess.run([SOLVE], input=b"(;SZ[2])", stdout=gone, stderr=subprocess.PIPE, timeout=LIMIT_SECONDS)
        self.assertEqual(-signal.SIGPIPE, run.returncode)
        self.assertRegex(run.stderr.decode(), r"^hexd-solve: won black, with up to 100 positions, after \d+\.\d s\n$")

    def test_without_standard_error(self):
        for command in unheard(SOLVE):
            run = subprocess.run(command, input=b"(;SZ[1];B[a1])", stdout=subprocess.PIPE, timeout=LIMIT_SECONDS)
            self.assertEqual((0, b"over black\n"), (run.returncode, run.stdout))

    def test_what_ends_by_a_limit_says_so(self):
        solve = ["solve", "--hsearch", "off", "--budget", "1000000000"]
        for words, given, memory, seconds, said in (
            (solve, EMPTY.encode(), limits.GIB, 1, "hexd was ended by signal 24 (CPU time limit exceeded)"),
            (["check"], bytes(limits.GIB // 16), limits.GIB // 32, 60, "hexd ended with status 5 (hexd: out of memory)"),
        ):
            with self.assertRaises(hexd.EngineEnded) as ended:
                limits.Held(hexd.PROGRAM, words, memory, seconds).answer(given)
            self.assertEqual(said, str(ended.exception))

    def started(self, *words, before=()):
        pipe = subprocess.PIPE
        process = subprocess.Popen(dying(*before, SOLVE, *words), stdin=pipe, stdout=pipe, stderr=pipe, text=True)
        process.stdin.write(EMPTY)
        process.stdin.close()
        process.stdin = None
        return process

    def test_ctrl_c_leaves_what_it_has(self):
        process = self.started("--hsearch", "off", "--budget", f"{10**15}")
        lines = [first_line(process.stderr), first_line(process.stderr)]
        process.send_signal(signal.SIGINT)
        said, errors = process.communicate(timeout=LIMIT_SECONDS)
        known = re.findall("^hexd-solve: (unknown [0-9]+), with", "".join(lines) + errors, re.M)
        self.assertEqual((130, known[-1] + "\n"), (process.returncode, said))
        self.assertTrue(errors.endswith("hexd-solve: stopped; what is known stands\n"), errors)

    def test_nohup(self):
        """A terminal that is closed doesn't end it then."""
        with tempfile.TemporaryDirectory() as folder:
            program = Path(folder) / "hexd"
            waits = 'until [ -e "$0.ends" ]; do sleep 0.1; done'
            program.write_text(f'#!/bin/sh\ncat >/dev/null\n>"$0.works"\n{waits}\necho won black\n')
            program.chmod(0o755)
            process = self.started("--program", program, before=["nohup"])
            until(Path(f"{program}.works").exists, "hexd is at work")
            process.send_signal(signal.SIGHUP)
            Path(f"{program}.ends").touch()
            said, errors = process.communicate(timeout=LIMIT_SECONDS)
            self.assertEqual((0, "won black\n"), (process.returncode, said), errors)

    def test_how_a_program_is_named(self):
        """As in a shell: in its own folder with a dot, and by the path."""
        with tempfile.TemporaryDirectory() as folder:
            Path(folder, "hexd").symlink_to(hexd.PROGRAM)
            own = {**os.environ, "PATH": f"{folder}:{os.environ['PATH']}"}
            for name, words, place, environment in (
                ("./hexd", [], folder, os.environ),
                ("hexd", [], "/", own),
                ("/nowhere", ["--program", "./hexd"], folder, os.environ),
                ("/nowhere", ["--program=hexd"], "/", own),
            ):
                with self.subTest(name=name, words=words):
                    command = [sys.executable, ROOT / "board/solve.py", *words]
                    run = subprocess.run(command, input=b"(;SZ[2])", capture_output=True, timeout=LIMIT_SECONDS,
                                         cwd=place, env={**environment, "HEXD": name})
                    self.assertEqual((0, b"won black"), (run.returncode, run.stdout.partition(b"\n")[0]), run.stderr)

    def test_how_python_begins(self):
        """It finds the files beside its own, whatever the environment says, and a folder is an input that is empty."""
        run = subprocess.run([SOLVE], input=b"(;SZ[1];B[a1])", capture_output=True, timeout=LIMIT_SECONDS,
                             env={**os.environ, "PYTHONSAFEPATH": "1"})
        self.assertEqual((0, b"over black\n"), (run.returncode, run.stdout), run.stderr)
        folder = os.open("/", os.O_RDONLY)
        self.addCleanup(os.close, folder)
        run = subprocess.run([SOLVE], stdin=folder, capture_output=True, timeout=LIMIT_SECONDS)
        said = b"hexd-solve: -: it is no record of a game\n"
        self.assertEqual((1, b"", said), (run.returncode, run.stdout, run.stderr))

    def test_it_ends_with_hexd(self):
        with tempfile.TemporaryDirectory() as folder:
            program = Path(folder) / "hexd"
            # It says that it has its input: until then the launcher may have other children.
            program.write_text('#!/bin/sh\ncat >/dev/null\necho $$ >"$0.pid"\nexec sleep 1000\n')
            program.chmod(0o755)
            at_work = Path(f"{program}.pid")
            for number, status, said in (
                (signal.SIGINT, 130, "hexd-solve: stopped before anything was known\n"),
                (signal.SIGTERM, 143, ""),
                (signal.SIGHUP, 129, ""),
            ):
                process = self.started("--program", program)
                child = int(until(lambda: at_work.exists() and at_work.read_text(), "hexd is at work"))
                at_work.unlink()
                process.send_signal(number)
                self.assertEqual(("", said), process.communicate(timeout=LIMIT_SECONDS))
                self.assertEqual(status, process.returncode)
                until(lambda: not is_running(child), "hexd has ended")
