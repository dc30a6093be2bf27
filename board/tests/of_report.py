"""Reports: of a whole game, opened in a browser; and why there is none."""

import json
import lzma
import os
import re
import signal
import subprocess
import sys
import tempfile
import unittest
from pathlib import Path

from tests.certificates import FULL, SEMI
from tests.support import LIMIT_SECONDS, ROOT, SMALL, children, dying, first_line, is_running, unheard, until

import hexd

# White has a certified win before move 4, Black after it, and White again after move 5.
GAME = "(;FF[4]GM[11]SZ[5]PB[<b>&]C[a ';B[a1\\]'];B[c2];W[c3];B[d3];W[a1];B[a2];W[c4];B[d4];W[d2];B[b3];W[b4];B[a5];W[a4])"
SWAPPED = "(;GM[11]SZ[3];B[b2];W[swap-pieces];B[a2];W[c1];B[resign])"
# Both play along the edges.
WEAK = "(;GM[11]SZ[10];B[a1];W[j10];B[j1];W[a10];B[b1];W[i10];B[i1];W[b10];B[c1];W[h10];B[h1];W[c10])"
# A move keeps the win that hexd solve shows, and another one gives it away.
KEPT, LOST = "(;GM[11]SZ[5];B[c2];W[c3];B[a4])", "(;GM[11]SZ[5];B[c2];W[c3];B[d3])"
# White plays by his certificate of move 4, and answers by it.
PROVED = "(;GM[11]SZ[5];B[c2];W[c3];B[d3];W[c4];B[a1];W[a2])"


# A report for whose positions the solver has so many seconds: what it decides within one is the machine's matter.
TIMED = """
import sys
sys.path.insert(0, sys.argv.pop(1))
import report
report.SOLVE_SECONDS = float(sys.argv.pop(1))
sys.exit(report.main())"""


# The kinds of what JSON has of a position.
NAME = (str, type(None))
JSON_KINDS = {"black": list, "white": list, "to_move": NAME, "winner": NAME, "solved": NAME, "best": NAME, "plan": NAME,
              "allowed": list, "threats": list, "search": dict, "certificate": NAME, "checked": NAME, "may_swap": bool,
              "played": (dict, type(None))}


def reported(*words, given=None, seconds=None):
    launcher = [ROOT / "bin/hexd-report"] if seconds is None else [sys.executable, "-c", TIMED, ROOT / "board", seconds]
    command = dying(*launcher, *words)
    how = {"input": given} if given is not None else {"stdin": subprocess.DEVNULL}
    return subprocess.run(command, capture_output=True, text=True, timeout=LIMIT_SECONDS, **how)


class Reports(unittest.TestCase):
    def setUp(self):
        folder = tempfile.TemporaryDirectory()
        self.addCleanup(folder.cleanup)
        self.folder = Path(folder.name)

    def report(self, record, name="a game.sgf", seconds=None):
        file = self.folder / name
        file.write_text(record)
        return reported(*SMALL, file, seconds=seconds)

    def test_a_report_stands_alone(self):
        run = self.report(GAME)
        self.assertEqual(0, run.returncode, run.stderr)
        moves = GAME.count(";B[") + GAME.count(";W[") - 1
        self.assertEqual([f"{number} of {moves}" for number in range(moves + 1)], run.stderr.splitlines())
        self.assertEqual([], re.findall(r"""(?:src|href)=["'](?!#)""", run.stdout))
        self.assertNotIn("http://", run.stdout.replace("http://www.w3.org/2000/svg", ""))
        self.assertIn("looked at by hexd with 200 playouts a move, weight 0, 1 worker", run.stdout)

    def test_json(self):
        """One line with what the page shows, of which keys and kinds stay."""
        run = reported(*SMALL, "--json", "-", given="(;GM[11]SZ[2];B[a2];W[a1])")
        self.assertEqual(0, run.returncode, run.stderr)
        found = json.loads(run.stdout)
        positions = found["positions"]
        for position in positions:
            self.assertEqual([*JSON_KINDS], [*position])
            self.assertTrue(all(isinstance(position[key], kind) for key, kind in JSON_KINDS.items()), position)
        first, lost, last = positions
        self.assertEqual(run.stdout, json.dumps(found, separators=(",", ":")) + "\n")
        head = {key: value for key, value in found.items() if key != "positions"}
        self.assertEqual({"name": "Standard input", "size": 2, "notes": [], "opening": None}, head)
        certificates = [position["certificate"] for position in positions]
        self.assertEqual(["yes semi", "yes full", "yes semi"], [hexd.check(text.encode()) for text in certificates])
        stones = {"black": ["a2"], "white": []}
        search = lost["search"]
        self.assertEqual(["a1", "b1", "b2"], [*search])
        self.assertEqual([int] * 6, [type(number) for counts in search.values() for number in counts.values()])
        self.assertEqual({**stones, "to_move": "white", "winner": None, "solved": "black", "best": lost["best"], "plan": "lost",
                          "allowed": ["a1", "b1", "b2"], "threats": [["a1"], ["b1"]], "search": search,
                          "certificate": certificates[1], "checked": "yes full", "may_swap": True,
                          "played": {"colour": "white", "move": "a1"}}, lost)
        self.assertEqual({"black": ["a2"], "white": ["a1"], "to_move": "black", "winner": None, "solved": "black", "best": "b1",
                          "plan": "win", "allowed": ["b1"], "threats": [], "search": {}, "certificate": certificates[2],
                          "checked": "yes semi", "may_swap": False, "played": None}, last)
        self.assertEqual(("black", "win", True), (first["to_move"], first["plan"], first["may_swap"]))

    def test_json_of_a_game_that_is_over_and_of_a_certificate(self):
        run = reported(*SMALL, "--json", "-", given="(;GM[11]SZ[1];B[a1])")
        [_, over] = json.loads(run.stdout)["positions"]
        self.assertEqual((None, "black", None, None, [], False),
                         tuple(over[key] for key in ("to_move", "winner", "best", "plan", "allowed", "may_swap")))
        file = self.folder / "c4.cert"
        file.write_bytes(SEMI)
        run = reported("--json", file)
        want = {"name": "c4.cert", "certificate": SEMI.decode(), "checked": "yes semi"}
        self.assertEqual((0, json.dumps(want, separators=(",", ":")) + "\n"), (run.returncode, run.stdout))

    def test_standard_input(self):
        run = reported(*SMALL, "-", given="\ufefftext (;SZ[3];B[B2];W[swap];B[cc];W[])")
        self.assertEqual(0, run.returncode, run.stderr)
        self.assertIn("<h1>Standard input</h1>", run.stdout)
        self.assertIn("<p>Move 4 is a pass of White&#x27;s, which Hex hasn&#x27;t: it is left out.</p>", run.stdout)

    def test_names_that_are_no_text(self):
        """Of a file in the title of a page, and in what is said of it."""
        name = b"a\xff\n\x1b <game>.sgf"
        file = os.fsencode(self.folder) + b"/" + name
        Path(os.fsdecode(file)).write_text("(;SZ[1])")
        run = reported(*SMALL, os.fsdecode(file))
        self.assertEqual(0, run.returncode, run.stderr)
        self.assertIn("<h1>a??? &lt;game&gt;.sgf</h1>", run.stdout)
        run = reported(os.fsdecode(file + b"x"))
        said = f"hexd-report: {self.folder}/a??? <game>.sgfx: No such file or directory\n"
        self.assertEqual((1, "", said), (run.returncode, run.stdout, run.stderr))

    def test_what_it_searches_with(self):
        workers = min(4, len(os.sched_getaffinity(0)))
        for words, want in (
            ([], f"100,000 playouts a move, weight 0, {workers} worker{'s' * (workers > 1)}"),
            (["--playouts", "9", "--weight", "180", "--workers", "2"], "9 playouts a move, weight 180, 2 workers"),
        ):
            run = reported(*words, "-", given="(;SZ[1])")
            self.assertIn(f"looked at by hexd with {want}<", run.stdout, run.stderr)

    def test_without_a_place_for_the_page(self):
        command = dying(ROOT / "bin/hexd-report", "--playouts", "9", "-")
        with open("/dev/full", "w") as full:
            run = subprocess.run(command, input=b"(;SZ[1])", stdout=full, stderr=subprocess.PIPE, timeout=LIMIT_SECONDS)
        said = b"0 of 0\nhexd-report: standard output: No space left on device\n"
        self.assertEqual((1, said), (run.returncode, run.stderr))

    def test_without_standard_error(self):
        for command in unheard(ROOT / "bin/hexd-report", "--playouts", "9", "-"):
            run = subprocess.run(command, input=b"(;SZ[1])", stdout=subprocess.PIPE, timeout=LIMIT_SECONDS)
            self.assertEqual((0, True), (run.returncode, run.stdout.endswith(b"</html>\n")))

    def test_a_certificate(self):
        run = self.report(SEMI.decode(), "c4.cert")
        self.assertEqual((0, ""), (run.returncode, run.stderr))
        self.assertEqual([], re.findall(r"""(?:src|href)=["'](?!#)""", run.stdout))
        self.assertIn("<h1>c4.cert</h1>", run.stdout)
        for wrong, why in (
            (SEMI.replace(b"white b3", b"white b4"), "hexd check refuses it: no 4 2"),
            (SEMI[:100], "hexd check refuses it: not a certificate at line 10"),
            (b"hexcert 5\n", "hexd check refuses it: not a certificate at line 1"),
        ):
            run = self.report(wrong.decode(), "wrong.cert")
            self.assertEqual((1, "", f"hexd-report: {self.folder / 'wrong.cert'}: {why}\n"), (run.returncode, run.stdout, run.stderr))

    def test_a_packed_certificate(self):
        packed = lzma.compress(SEMI)
        run = subprocess.run([ROOT / "bin/hexd-report", "-"], input=packed, capture_output=True, timeout=LIMIT_SECONDS)
        self.assertEqual((0, b""), (run.returncode, run.stderr))
        self.assertIn(b"</html>", run.stdout)
        for wrong, why in (
            (packed[:40] + b"?" + packed[41:], "it is packed by xz, and damaged: "),
            (lzma.compress(b"a text"), "it is no record of a game"),
        ):
            run = subprocess.run([ROOT / "bin/hexd-report", "-"], input=wrong, capture_output=True, timeout=LIMIT_SECONDS)
            self.assertEqual((1, b""), (run.returncode, run.stdout))
            self.assertTrue(run.stderr.decode().startswith(f"hexd-report: -: {why}"), run.stderr)

    def test_what_is_refused(self):
        missing = reported(self.folder / "none.sgf")
        self.assertEqual((1, ""), (missing.returncode, missing.stdout))
        self.assertIn("none.sgf: No such file or directory", missing.stderr)
        for record, why in (
            ("(;GM[1]SZ[9])", "it is a record of another game than Hex: GM[1]"),
            ("", "it is no record of a game"),
            ("(;SZ[14];B[a1])", "size 14: hexd plays 1 to 11"),
            (GAME.replace("d4", "c4"), "move 7 is illegal: Black c4, for there is a stone on it"),
            ("(;SZ[3];B[b2](;W[z9])(;W[a1]))", "move 2 is illegal: White z9, for the board of size 3 has no such cell"),
            ("(;GM[11]SZ[1];B[a1];W[a1])", "move 2 is illegal: White a1, for Black has won before"),
            ("(;SZ[3]AB[b2][c1]AW[a1];W[a2];B[c1])", "move 2 is illegal: Black c1, for there is a stone on it"),
            ("(;SZ[3]AB[b2]AW[b2];W[a2])", "no stone of the start can lie on b2, for there is a stone on it"),
            ("(;SZ[3]AB[d4];W[a2])", "no stone of the start can lie on d4, for the board of size 3 has no such cell"),
        ):
            run = self.report(record)
            self.assertEqual((1, ""), (run.returncode, run.stdout))
            self.assertEqual(f"hexd-report: {self.folder / 'a game.sgf'}: {why}\n", run.stderr)
        for words, named in ((("--playouts", "0", "x"), "'0'"), (("--plyouts=3", "x"), "--plyouts=3"), ((), "GAME.sgf")):
            run = reported(*words)
            self.assertEqual((2, "", 1), (run.returncode, run.stdout, len(run.stderr.splitlines())))
            self.assertIn(named, run.stderr)

    def test_a_program_of_the_path(self):
        (self.folder / "hexd").symlink_to(hexd.PROGRAM)
        environment = {**os.environ, "HEXD": "hexd", "PATH": f"{self.folder}:{os.environ['PATH']}"}
        command = [sys.executable, ROOT / "board/report.py", "--playouts", "9", "-"]
        run = subprocess.run(command, input=b"(;SZ[1])", capture_output=True, timeout=LIMIT_SECONDS, cwd="/", env=environment)
        self.assertEqual((0, b"0 of 0\n"), (run.returncode, run.stderr))

    def test_signals(self):
        """With each its hexd ends and its folder goes, and nothing is said of it."""
        file = self.folder / "game.sgf"
        file.write_text("(;GM[11]SZ[11])")
        command = dying(ROOT / "bin/hexd-report", "--playouts", "1000000", "--workers", "1", file)
        for number, status in ((signal.SIGTERM, 143), (signal.SIGHUP, 129), (signal.SIGINT, 130)):
            with self.subTest(signal=number), tempfile.TemporaryDirectory() as folder:
                pipe, environment = subprocess.PIPE, {**os.environ, "TMPDIR": folder}
                process = subprocess.Popen(command, stdin=subprocess.DEVNULL, stdout=pipe, stderr=pipe, text=True, env=environment)
                self.assertEqual("0 of 0\n", first_line(process.stderr))
                (engine,) = until(lambda: children(process.pid), "hexd is at work")
                self.assertEqual(["hexd-report-"], [name[:12] for name in os.listdir(folder)])
                process.send_signal(number)
                self.assertEqual(("", ""), process.communicate(timeout=LIMIT_SECONDS))
                self.assertEqual((status, []), (process.returncode, os.listdir(folder)))
                until(lambda: not is_running(engine), "hexd has ended")


def in_browser(shots):
    """The tests of reports that need a browser. Made here, so that the others run without one."""
    from tests.browser import NARROW, WIDE, Browser

    class Opened(Reports):
        @classmethod
        def setUpClass(cls):
            cls.browser, cls.made = Browser(), {}
            cls.addClassCleanup(cls.browser.end)

        def open(self, record, name="a game.sgf", seconds=LIMIT_SECONDS):
            """Opens a report, which is made once. On a small board the solver decides all in this time."""
            if record not in self.made:
                self.made[record] = self.report(record, name, seconds).stdout
            file = self.folder / "report.html"
            file.write_text(self.made[record])
            self.browser.window(WIDE)
            self.browser.open(file.as_uri())
            self.assertEqual([], self.browser.faults())

        def to(self, position):
            """Goes to a position by the buttons of the page."""
            self.browser.click("#first") if self.browser.find("#first").is_enabled() else None
            for _ in range(position):
                self.browser.click("#forth")
            return self.browser.text("#said")

        def bad(self):
            """The moves of the table that are told to be bad."""
            return [row.text.split("\n")[0][:4] for row in self.browser.all("#moves tr.bad")]

        def test_a_whole_game(self):
            self.open(GAME)
            browser = self.browser
            self.assertEqual(12, len(browser.all("#moves tbody tr")))
            self.assertEqual(1, len(browser.all("svg.board")))
            self.assertTrue(browser.all("#plot .mark.proved"))
            self.assertEqual(["3 d3", "4 a1", "5 a2"], self.bad())
            self.assertEqual("a game.sgf", browser.text("h1"))
            # In the dark the outlines have another colour.
            self.assertIn("Outlined cells: ", browser.text(".legend"))
            self.assertIn("The start", browser.text("#said"))
            self.assertIn("This move is outside a threat: after it White wins.", self.to(2))
            self.assertIn("hexd check accepts it, in a run of its own.", self.to(3))
            self.assertIn("This move gives the win away.", browser.text("#said"))
            self.assertEqual(4, len(browser.all("#stage .stone")) + 1)
            self.shot("report")
            browser.click("#end")
            self.assertIn("After move 12: White a4", browser.text("#said"))
            browser.click("#plot")
            self.assertIn("After move 6", browser.text("#said"))

        def test_a_game_to_its_end(self):
            self.open("(;SZ[2];B[a2];W[b2];B[a1])")
            self.browser.click("#end")
            self.assertIn("Black has won.", self.browser.text("#said"))
            self.assertEqual(2, len(self.browser.find("#stage .chain").get_attribute("points").split()))

        def test_a_drawn_certificate(self):
            browser = self.browser
            self.open(FULL.decode(), "b2.cert")
            self.assertEqual("Black wins.", browser.text("#winner"))
            self.assertIn("Outlined cells: ", browser.text(".legend"))
            self.open(SEMI.decode(), "c4.cert")
            self.assertEqual("Black wins by c3.", browser.text("#winner"))
            self.assertIn("Black joins row 1 and row 4 if Black moves first", browser.text("#claim"))
            self.assertEqual("hexd check accepts it, in a run of its own.", browser.text("#checked"))
            self.assertEqual([["d1"], ["b3"]], [browser.vertices(f"[data-vertex]:has(.stone.{colour})") for colour in "bw"])
            carrier = {"c2", "d2", "c3", "b4", "c4"}
            self.assertEqual(carrier, set(browser.vertices("[data-vertex]:has(.carrier)")))
            self.assertEqual(15, len(browser.all("#lines li")))
            self.shot("certificate-page")
            browser.click("#lines li:nth-child(9) button")
            self.assertEqual(["c2"], browser.vertices("[data-vertex]:has(.middle)"))
            for size, dark in ((NARROW, False), (WIDE, True)):
                browser.window(size, dark)
                self.assertTrue(browser.run("return document.documentElement.scrollWidth <= innerWidth"))
                self.shot(f"certificate-page-{size[0]}{'-dark' if dark else ''}")
            browser.window(WIDE)

        def test_losses(self):
            self.open(GAME)
            browser = self.browser
            losses = [item.text for item in browser.all("#losses li")]
            self.assertTrue(2 <= len(losses) <= 5)
            # The moves that gave a proved win away lost all of it.
            for loss, move in zip(losses, ("3 d3", "4 a1", "5 a2")):
                self.assertRegex(loss, rf"^{move} loses 100: from wins to lost; hexd's move [a-e][1-5]$")
            cells = [cell.text for cell in browser.all("#moves tbody tr:nth-child(4) td")]
            self.assertRegex(" ".join(cells), "^4 a1 [a-e][1-5] wins lost 100$")
            browser.click("#losses li:nth-child(3) button")
            self.assertIn("After move 4: White a1", browser.text("#said"))

        def test_what_is_a_loss(self):
            """A step between a guess and a proof is none; what the solver decides within a second counts as decided."""
            self.open(KEPT)
            self.assertEqual([], [item.text for item in self.browser.all("#losses li") if item.text.startswith("3 ")])
            self.assertIn("Solved: Black wins.", self.to(2))
            self.open(LOST)
            self.assertRegex(self.browser.text("#losses li:first-child"), "^3 d3 loses 100: from wins to lost")
            self.assertEqual(["3 d3"], self.bad())
            for before, after, loss in (
                ({"value": 0.9}, {"value": 0, "proved": True}, None),
                ({"value": 1, "proved": True}, {"value": 0.4}, None),
                ({"value": 0.75}, {"value": 0.5}, 0.25),
                ({"value": 1, "proved": True}, {"value": 1, "proved": True}, 0),
                ({"value": 1, "proved": True}, {"value": 0, "proved": True}, 1),
            ):
                told = self.browser.run("shareAt = at => arguments[at]; return lossAt(0).loss", before, after)
                self.assertEqual(loss, told, (before, after))

        def test_five_losses(self):
            # The losses are between searches, as no position is solved.
            self.open(WEAK, seconds=0)
            browser = self.browser
            points = [int(cell.text) for cell in browser.all("#moves tbody td:last-child") if cell.text not in ("", "0")]
            self.assertGreater(len(points), 5)
            told = [int(re.search(r"loses (\d+):", loss.text)[1]) for loss in browser.all("#losses li")]
            self.assertEqual(sorted(points, reverse=True)[:5], told)

        def test_print(self):
            self.open(GAME)
            browser = self.browser
            browser.run("dispatchEvent(new Event('beforeprint'))")
            self.assertEqual(13, len(browser.all(".position")))
            self.assertFalse(browser.find("#positions").is_displayed())
            browser.print_form(True)
            self.assertTrue(browser.find("#position-12").is_displayed())
            self.assertFalse(browser.find("#stage").is_displayed())
            self.assertEqual(3, browser.text("#positions").count("This move gives the win away."))
            self.shot("report-print")
            browser.print_form(False)

        def test_windows(self):
            self.open(GAME)
            for size, dark in ((NARROW, False), (WIDE, False), (WIDE, True)):
                self.browser.window(size, dark)
                self.assertTrue(self.browser.run("return document.documentElement.scrollWidth <= innerWidth"))
                self.shot(f"report-{size[0]}{'-dark' if dark else ''}")

        def shot(self, name):
            if shots is not None:
                self.browser.shot(Path(shots) / f"{name}.png")

        def test_a_proof_stays_a_proof(self):
            self.open(PROVED)
            self.assertIn("Black has lost: White's certificate of move 4.", self.to(4))
            self.assertIn("White wins by", self.to(5))
            # The record's move is another one, but also one by the first certificate.
            self.assertIn("Black has lost: White's certificate of move 4.", self.to(6))
            # It stands before what a search says, in the plot too.
            self.assertRegex(self.browser.text("#said"), r"^After move 6: .*\nBlack has lost: .*\nWith Black to move:\n")
            titles = self.browser.run("return [...document.querySelectorAll('#plot title')].map(title => title.textContent)")
            self.assertEqual([f"after {at} moves: White wins, proved" for at in range(3, 7)], titles[-4:])

        def test_a_swapped_game(self):
            self.open(SWAPPED)
            self.assertEqual(4, len(self.browser.all("#moves tbody tr")))
            # Black has lost before his second move, so that White's second alone gives something away.
            self.assertEqual(["4 c1"], self.bad())
            self.assertIn("a certified win, against every reply but a swap.", self.to(0))
            self.assertIn("White loses with every move but a swap", self.to(1))
            self.assertIn("White swaps", self.browser.text("#said"))
            self.assertIn("Black loses with every move", self.to(2))
            self.assertIn("This move gives the win away.", self.to(3))

        test_a_report_stands_alone = test_what_is_refused = test_standard_input = test_what_it_searches_with = None
        test_a_certificate = test_names_that_are_no_text = test_json = None
        test_json_of_a_game_that_is_over_and_of_a_certificate = None
        test_signals = test_a_program_of_the_path = None

    return Opened
