#!/usr/bin/env python3
"""Tests hexd.html in a headless Chromium: its module beside the built program, byte for byte, and the page as one uses it.

    test.py [--page FILE] [--long] [NAME..]

It tests FILE; if none is named, or FILE is of other sources, one that it makes (page.py). It says one line if all is right.
With --long it makes many more runs, in Firefox too if that is there, and all tests of the board's page; with names it runs
the tests whose names have one of these in them. It needs what board/test.py needs, and says so if that is missing.
"""

import argparse
import atexit
import csv
import hashlib
import http.server
import importlib.util
import io
import lzma
import os
import re
import shutil
import subprocess
import sys
import tempfile
import threading
import unittest
from pathlib import Path

HERE = Path(__file__).resolve().parent
ROOT = HERE.parent
sys.path[:0] = [str(HERE), str(ROOT / "board")]

import build
import page
from cases import FILE_NAME, Case, cases, native
from firefox import FIREFOX, Firefox
from openings import turned_cell
from tests.support import until

SYSTEM_PYTHON = "/usr/bin/python3"
PROGRAM = Path(os.environ.get("HEXD") or ROOT / "crates" / "hexd" / "out" / "hexd")
# How many runs are made in one call of the browser, and longer than that takes on a machine that is busy.
AT_ONCE, CALL_SECONDS, LONG_SECONDS = 5, 300, 3_600
# Sessions, openings and the largest board that is solved; and long sessions, each of so many games with so many playouts a
# move. A player makes fewer moves in an hour.
QUICK, LONG = (20, 4, 4), (120, 40, 5)
QUICK_GAMES, LONG_GAMES = [(1, 100)], [(2, 100_000), (100, 1_000)]
MOVES = 60
# What a long session stays below.
MOST_BYTES = 200_000_000
# As many playouts as the board's tests have.
SMALL = 200
# A page of memory has 65,536 bytes: so many are too few for a search.
FEW_PAGES = 320
# And so many for a solver of 9 by 9.
FEW_FOR_SOLVER = 240
# Tests of the board's page in the quick form; and those that are of its server.
OF_BOARD = """test_size_3_by_clicks test_size_11_by_clicks_and_keys_against_hexd test_hexd_against_itself test_swap
test_a_reload_keeps_what_hexd_said test_save_and_open test_the_table test_what_is_refused_says_why
test_a_record_of_another_program test_a_certificate_is_opened test_against_a_certificate
test_a_packed_certificate_is_refused test_a_dropped_certificate test_a_certified_win test_the_map_on_an_empty_board
test_the_answers_of_an_opening test_guesses_on_an_empty_board test_what_is_quoted_is_a_line
test_a_proof_is_played_to_the_end test_hexd_swaps test_a_game_by_the_clock test_a_saved_game test_live_analysis
test_moves_are_judged_by_shares test_the_tree_of_moves test_what_was_deleted_lasts_over_a_reload test_a_wrong_move_is_refuted test_one_is_solved""".split()
OF_SERVER = """test_a_lost_process test_a_page_that_goes_ends_its_session test_the_page_after_the_last_place test_copies
test_stop_ends_a_search test_a_certificate_wins_for_a_weak_hexd
test_back_without_a_process test_to_the_start_by_one_record test_strengths test_a_full_disk
test_a_server_that_is_started_anew""".split()


def missing():
    """What the tests lack, in words; or None."""
    for name in ("chromium", "chromedriver"):
        if not shutil.which(name):
            return f"there is no {name}"
    if importlib.util.find_spec("selenium") is None:
        return "there is no selenium for Python"
    return None if PROGRAM.exists() else f"{PROGRAM} is not built"


def become_system_python():
    """Starts anew under the system's Python, which Debian's packages are for, if that has Selenium and this one hasn't."""
    if importlib.util.find_spec("selenium") or os.path.realpath(sys.executable) == os.path.realpath(SYSTEM_PYTHON):
        return
    has = [SYSTEM_PYTHON, "-c", "import selenium"]
    if os.path.exists(SYSTEM_PYTHON) and subprocess.run(has, stdin=subprocess.DEVNULL, capture_output=True).returncode == 0:
        os.execv(SYSTEM_PYTHON, [SYSTEM_PYTHON, *sys.argv])


class InBrowser(unittest.TestCase):
    """One browser for all tests. `file` is the page, `small` the one that is driven."""

    browser = file = small = folder = None
    sizes, games = QUICK, QUICK_GAMES

    def open(self, address=None):
        self.browser.open(address or self.small.as_uri())
        return self.browser

    def in_page(self, call, *values):
        """What a function of driver.js promises; the page is open."""
        script = f"{call}(...arguments).then(arguments[{len(values)}], fault => arguments[{len(values)}](String(fault)))"
        return self.browser.driver.execute_async_script(script, *values)

    def ran(self, runs, pages=None):
        """What the page's module gives for these runs."""
        told = [{"words": list(it.words), "pieces": [part.decode("latin-1") for part in parts],
                 "file": None if it.file is None else it.file.decode("latin-1")} for it, parts in runs]
        return self.in_page("allRan", told, pages)

    def same(self, runs):
        """Holds the page's module to the built program, for runs of which each is a case and the pieces of its input."""
        for it, got in zip((it for it, _ in runs), self.ran(runs)):
            with self.subTest(words=it.words, input=it.input[:200]):
                found = (got["out"].encode("latin-1"), got["err"].encode("latin-1"), got.get("status", got.get("fault")))
                self.assertEqual(native(PROGRAM, it, self.folder), found)


class Module(InBrowser):
    def test_as_the_program(self):
        self.open()
        all_cases = cases(PROGRAM, self.folder, *self.sizes)
        for at in range(0, len(all_cases), AT_ONCE):
            self.same([(it, [it.input]) for it in all_cases[at : at + AT_ONCE]])

    def test_pieces_and_ends_of_input(self):
        """However the input is cut, and where it ends."""
        self.open()
        text = b"boardsize 3\nplay b a1\n\nshowboard\nloadsgf record.sgf\nprintsgf\nname"
        it = Case(("htp",), text, b"(;GM[11]SZ[2];B[a1])")
        for size in (1, 2, 7, len(text)):
            self.same([(it, [text[at : at + size] for at in range(0, len(text), size)])])
        long_line = Case(("htp",), b"x" * 4097 + b"\nname\n" + b"y" * 4096)
        self.same([(it, [b"", text, b""]), (Case(("htp",)), []), (Case(("htp",)), [b""]), (long_line, [long_line.input])])
        self.same([(Case(("check",)), []), (Case(("htp",), b"quit\nname\n"), [b"qu", b"it\nname\n"])])

    def test_a_file(self):
        """What `loadsgf` finds, and what it doesn't."""
        self.open()
        record = b"(;GM[11]SZ[2])"
        for content in (None, b"", record, b" " * 1_048_560 + record, b" " * 1_048_576 + record):
            asked = f"loadsgf {FILE_NAME}\nprintsgf\nloadsgf nowhere\nloadsgf {FILE_NAME}\n".encode()
            self.same([(Case(("htp",), asked, content), [asked])])

    def test_out_of_memory(self):
        self.open()
        large = ("--playouts", "1000000", "--expand", "1", "--words", "16777216")
        asked = [(Case(("htp", *large)), [b"name\ngenmove b\nname\n"]), (Case(("bench", *large)), [])]
        for got in self.ran(asked, FEW_PAGES):
            self.assertEqual((5, "hexd: out of memory\n"), (got.get("status"), got["err"]), got)

    def test_what_ran_out_of_memory_is_no_answer(self):
        self.open()
        got = self.in_page("gotWithin", FEW_FOR_SOLVER, ["solve", "--budget", "400"], "(;GM[11]SZ[9];B[a4];W[d4];B[f6])")
        self.assertEqual("hexd ended with status 5 (hexd: out of memory): that is no answer.", got)

    def test_several_workers(self):
        """No thread can be made, so one makes the playouts of all."""
        self.open()
        asked = b"genmove b\nsearch-report\n"
        words = "htp --size 4 --hsearch off --workers 8 --playouts 500"
        [got] = self.ran([(Case(tuple(words.split())), [asked])])
        self.assertEqual((0, ""), (got["status"], got["err"]))
        lines = got["out"].split("\n")
        self.assertEqual("= playouts 500", lines[2])
        self.assertEqual(500, sum(int(line.split(" ")[1]) for line in lines[3:19]))

    def test_memory_of_a_long_session(self):
        """Searches on the largest board, game after game."""
        self.open()
        moves = b"".join(b"genmove b\ngenmove w\n" for _ in range(MOVES // 2)) + b"clear_board\n"
        for games, playouts in self.games:
            [got] = self.ran([(Case(("htp", "--weight", "0", "--playouts", str(playouts))), [moves] * games)])
            self.assertEqual(0, got["status"])
            self.assertTrue(0 < got["memory"] < MOST_BYTES, got["memory"])

    def test_too_much_input(self):
        """What is no certificate, as long as one may be, and one byte longer."""
        self.open()
        for size, status in ((67_108_864, 1), (67_108_865, 6)):
            self.assertEqual(status, self.in_page("ofZeros", size)["status"])


class InFirefox(Module):
    """The same in another browser."""

    def setUp(self):
        self.browser = Firefox()
        self.addCleanup(self.browser.end)


class Heap(InBrowser):
    def test_heap(self):
        """memory.c alone: alignment, blocks apart from one another, growth, what is given back, and the end of memory."""
        try:
            kit = build.kit_of()
        except build.Refused as fault:
            self.skipTest(str(fault))
        module = self.folder / "heap.wasm"
        build.link(kit, self.folder, [build.compile_c(kit, self.folder, "heap")], module)
        self.open()
        self.assertEqual("", self.in_page("heapTested", module.read_bytes().decode("latin-1")))


class Page(InBrowser):
    def tearDown(self):
        self.browser.forget()
        self.assertEqual([], self.browser.faults())

    def moves(self):
        return self.browser.run("return location.hash.slice(1)").split(",")[1:]

    def changed(self, name, old, new):
        """A page with this change, which is made once."""
        text = self.small.read_text()
        self.assertEqual(1, len(re.findall(old, text)))
        made = self.folder / f"{name}.html"
        made.write_text(re.sub(old, new, text))
        return made.as_uri()

    def test_no_request(self):
        """From a host, with a whole game: the one request is for the file. What would ask for more is refused."""
        with Host(self.small) as host:
            browser = self.open(f"{host.address}#3,b2")
            browser.click("#go")
            browser.click("#hint")
            self.assertEqual(2, len(self.moves()))
            self.assertTrue(browser.find("#link").get_attribute("value").startswith(f"{host.address}#3,b2,"))
            self.assertEqual("refused", self.in_page("tried", "fetch", host.address))
            self.assertEqual("refused", self.in_page("tried", "image", f"{host.address}?image"))
            self.assertEqual("refused", self.in_page("tried", "script", f"{host.address}?script"))
            self.assertEqual(["/hexd.html"], host.paths)
        self.browser.faults()

    def test_a_link_from_a_disk(self):
        browser = self.open(f"{self.small.as_uri()}#3,b2")
        self.assertEqual("#3,b2", browser.find("#link").get_attribute("value"))

    def test_a_game_on_size_5(self):
        """hexd against itself to the end; the built program says of the same moves who has won."""
        browser = self.open(f"{self.small.as_uri()}#5,c3,b3")
        browser.choose("#player-b", "hexd")
        browser.choose("#player-w", "hexd")
        until(lambda: "has won" in browser.text("#state"), "the game has ended")
        colours = "bw" * 13
        lines = [f"play {colour} {move}" for colour, move in zip(colours, self.moves())]
        asked = "\n".join(["boardsize 5", *lines, "winner"]) + "\n"
        ran = subprocess.run([PROGRAM, "htp"], input=asked.encode(), stdout=subprocess.PIPE)
        *answers, winner = ran.stdout.decode().split("\n\n")[:-1]
        self.assertEqual({"="}, {answer.strip() for answer in answers})
        self.assertTrue(browser.text("#state").startswith(f"{winner.split()[1].capitalize()} has won"), winner)

    def test_memory_that_has_grown(self):
        """The next game gets a new run if the memory of this one has grown; a game that is under way keeps its run."""
        browser = self.open(f"{self.small.as_uri()}#4,b2")
        first = self.in_page("runOfPage", 1)
        browser.click("#new")
        self.assertEqual(first, self.in_page("runOfPage", 1_000_000_000))
        browser.click("#go")
        self.assertEqual(first, self.in_page("runOfPage", 1_000_000_000))
        browser.click("#new")
        second = self.in_page("runOfPage", 1_000_000_000)
        browser.click("#go")
        self.assertEqual(second, self.in_page("runOfPage", 1))
        self.assertNotEqual(first, second)
        self.assertTrue(self.moves())

    def test_stop(self):
        """It ends the worker that searches, and another one has the game."""
        browser = self.open(f"{self.small.as_uri()}#11,f6")
        browser.choose("#player-w", "I")
        first = self.in_page("runOfPage", 1)
        # The line is lost, so that no search ends before a busy browser has pressed Stop.
        browser.run("play.game.session.run.give = () => {}")
        browser.press("#go")
        until(lambda: browser.find("#stop").is_displayed(), "there is Stop")
        browser.press("#stop")
        browser.ready()
        self.assertEqual(["f6"], self.moves())
        self.assertNotEqual(first, self.in_page("runOfPage", 1))
        browser.click("#go")
        self.assertEqual(("f6", 2), (self.moves()[0], len(self.moves())))

    def test_two_pages_at_once(self):
        browser = self.open(f"{self.small.as_uri()}#4,b2")
        first = browser.driver.current_window_handle
        browser.driver.switch_to.new_window("window")
        second = browser.driver.current_window_handle
        browser.open(f"{self.small.as_uri()}#5,c3,b3")
        try:
            for _ in range(2):
                for window in (first, second):
                    browser.driver.switch_to.window(window)
                    browser.choose("#player-w", "I")
                    browser.click("#go")
            self.assertEqual((["c3", "b3"], 4), (self.moves()[:2], len(self.moves())))
        finally:
            browser.driver.switch_to.window(second)
            browser.driver.close()
            browser.driver.switch_to.window(first)
        self.assertEqual(("b2", 3), (self.moves()[0], len(self.moves())))

    def test_a_session_that_ends(self):
        """Who waits is told, and a new session goes on with the game."""
        browser = self.open(f"{self.small.as_uri()}#5,c3,b3")
        self.assertEqual("The session has ended: it was closed.", self.in_page("closedWhileAsked", "genmove b"))
        browser.choose("#player-w", "I")
        browser.cell("d2")
        self.assertIn("it was closed", browser.text("#alert"))
        browser.click("#again")
        browser.cell("d2")
        self.assertEqual(["c3", "b3", "d2"], self.moves())

    def test_a_broken_module(self):
        address = self.changed("broken", r'(id="hexd"[^>]*>)[^<]{400}', r"\1")
        self.browser.open(address)
        self.assertIn("its module is damaged", self.browser.text("#alert"))
        self.browser.faults()

    def test_a_browser_that_lacks_something(self):
        driver = self.browser.driver
        for lack in ("delete WebAssembly.Suspending", "WebAssembly.validate = () => false"):
            told = {"source": lack}
            number = driver.execute_cdp_cmd("Page.addScriptToEvaluateOnNewDocument", told)["identifier"]
            try:
                self.open()
                said = self.browser.text("#alert-text")
            finally:
                driver.execute_cdp_cmd("Page.removeScriptToEvaluateOnNewDocument", {"identifier": number})
            self.assertIn("lacks 64-bit memories or suspending of WebAssembly", said, lack)
            self.assertIn(page.TRIED, said)

    def winners(self, sizes):
        """Who wins by the list of openings/, by size and then by cell, of each opening and the opposite one."""
        found = {size: {} for size in sizes}
        with open(page.OPENINGS / "openings.tsv", newline="") as file:
            for name, winner, *_ in csv.reader(file, delimiter="\t"):
                size, _, vertex = name.partition("-")
                if size in found:
                    found[size] |= {vertex: winner, turned_cell(vertex, int(size)): winner}
        return found

    def marked(self):
        """The map on the board: who wins after each first stone that has a mark."""
        named = {"b": "black", "w": "white"}
        return {vertex: named[colour] for colour in named
                for vertex in self.browser.vertices(f"[data-vertex]:has(.opening.{colour})")}

    def give(self, name, content):
        """Opens a file by the page's button."""
        given = self.folder / name
        given.write_bytes(content)
        self.browser.find("#open").send_keys(str(given))

    def said(self, text, css="#words"):
        until(lambda: text in self.browser.text(css), text)

    def test_openings(self):
        """Of each opening the page says what the folder openings/ has, in both of its cells."""
        self.open()
        for size, winners in self.winners("34567").items():
            self.assertEqual(int(size) ** 2, len(winners))
            for vertex, winner in winners.items():
                self.assertEqual(winner, self.in_page("Session.winner", int(size), vertex), (size, vertex))
                self.assertEqual(size in page.SIZES, self.in_page("Session.certificate", int(size), vertex) is not None)

    def test_the_map_of_a_large_board(self):
        """Up to 7 by 7 the map is the list's; of what isn't in the page it names the file and its sum. Then come guesses."""
        for size, winners in self.winners("67").items():
            browser = self.open(f"{self.small.as_uri()}#{size}")
            until(lambda: len(browser.all(".opening")) == len(winners), "the map is there")
            self.assertEqual(winners, self.marked())
            self.said(f"Of {len(winners)} the certificate is not in this page, which has not checked it")
        browser.choose("#player-w", "I")
        for vertex, of in (("a1", ""), ("g7", ", of the board turned by half a circle")):
            browser.click("#new")
            browser.cell(vertex)
            self.said(f"Proved: after Black's {vertex} White wins; a swap gives the win away.")
            sums = hashlib.sha256((page.OPENINGS / "7-a1.cert.xz").read_bytes()).hexdigest()
            self.said(f"it is the file openings/7-a1.cert.xz of hexd's sources{of}, with the SHA-256 {sums}. "
                      "To check it: xz -dc openings/7-a1.cert.xz | bin/hexd check")
            self.assertNotIn("By the certificate", browser.text("#words"))
        browser = self.open(f"{self.small.as_uri()}#8")
        self.assertEqual(64, len(browser.all(".guess")))

    def test_a_certificate_of_a_large_board(self):
        """One that is given is checked here; then its answers are shown, also after the opposite first stone."""
        browser = self.open(f"{self.small.as_uri()}#7")
        certificate = lzma.decompress((page.OPENINGS / "7-f2.cert.xz").read_bytes())
        self.give("7-f2.cert", certificate)
        until(lambda: self.moves() == ["f2"], "the opening is shown")
        self.said("By the certificate Black answers a1 by ")
        self.said("hexd check accepts it, in a run of its own.", "#checked")
        self.assertNotIn("not in this page", browser.text("#words"))
        replies = browser.vertices("[data-vertex]:has(.reply)")
        self.assertIn(len(replies), range(1, 49))
        # hexd plays the winner, until one says otherwise.
        browser.choose("#player-b", "I")
        browser.click("#new")
        self.said("Of 47 the certificate is not in this page")
        self.assertEqual(self.winners("7")["7"], self.marked())
        browser.cell("b6")
        self.said("By the certificate Black answers ")
        self.said("Its certificate: openings/7-f2.cert.xz, of the board turned by half a circle.")
        self.assertEqual({turned_cell(vertex, 7) for vertex in replies}, set(browser.vertices("[data-vertex]:has(.reply)")))
        # A reload keeps a game, and what was said of it.
        browser.back()
        self.said("By the certificate Black answers a1 by ")
        browser.reload()
        self.said("By the certificate Black answers a1 by ")

    def test_a_certificate_that_is_cut(self):
        """What is no whole certificate of an opening changes nothing."""
        browser = self.open(f"{self.small.as_uri()}#7")
        certificate = lzma.decompress((page.OPENINGS / "7-f2.cert.xz").read_bytes())
        lines = certificate.split(b"\n")
        cut = (certificate[: len(certificate) // 2], b"\n".join(lines[:200]), b"\n".join([*lines[:200], lines[-2], b""]))
        for content in cut:
            self.give("7-f2.cert", content)
            self.said("hexd: the certificate is refused: ", "#said")
            browser.ready()
            self.assertEqual([], self.moves())
            self.said("Of 49 the certificate is not in this page")
        self.give("7-f2.cert.xz", (page.OPENINGS / "7-f2.cert.xz").read_bytes())
        self.said("7-f2.cert.xz is packed by xz, which a browser doesn't unpack", "#said")
        self.assertEqual(self.winners("7")["7"], self.marked())

    def test_a_wrong_opening(self):
        """Of a certificate that a run of hexd refuses the page says nothing."""
        self.open()
        right = page.openings()["3-a1"]
        *lines, claim = right.removesuffix("\n").split("\n")
        wrong = "\n".join([*lines, "semi 0", ""])
        self.assertNotEqual("semi 0", claim)
        self.assertEqual(["white", None, None], [self.in_page("provedBy", *it) for it in (
            (right, 3, "a1"), (wrong, 3, "a1"), (right, 3, "b1"))])


class NoServer:
    """What the tests of the board's page ask of their server: here the page needs none."""

    token = "token="

    def __init__(self, file):
        self.address = file.as_uri()

    def session(self):
        return "none"

    def post(self, path, certificate):
        """What the built program says of a certificate."""
        ran = subprocess.run([PROGRAM, "check"], input=certificate, stdout=subprocess.PIPE)
        return 200, ran.stdout.decode().rstrip("\n")

    def request(self, *_):
        pass


class Host:
    """Serves one file under the name hexd.html, and keeps what it is asked for."""

    def __init__(self, file):
        host = self
        host.paths = []

        class Handler(http.server.BaseHTTPRequestHandler):
            def do_GET(self):
                host.paths.append(self.path)
                content = file.read_bytes()
                self.send_response(200)
                self.send_header("Content-Type", "text/html")
                self.send_header("Content-Length", str(len(content)))
                self.end_headers()
                self.wfile.write(content)

            def log_message(self, *_):
                pass

        self.server = http.server.ThreadingHTTPServer(("127.0.0.1", 0), Handler)
        self.address = f"http://127.0.0.1:{self.server.server_port}/hexd.html"

    def __enter__(self):
        threading.Thread(target=self.server.serve_forever, daemon=True).start()
        return self

    def __exit__(self, *_):
        self.server.shutdown()
        self.server.server_close()


def of_board(file, browser, is_long):
    """The tests of the board's page with this page in the place of the server's: some, or all that need no server."""
    from tests import of_choices, of_games, of_hands, of_puzzles, of_records, of_sittings, of_thoughts, of_windows, pages

    pages.shared.update(server=NoServer(file), browser=browser)
    loader = unittest.TestLoader()
    all_of_board = (of_choices, of_games, of_hands, of_puzzles, of_records, of_sittings, of_thoughts, of_windows)
    modules = [loader.loadTestsFromModule(it) for it in all_of_board]
    found = [test for suites in modules for suite in suites for test in suite]
    return [test for test in found if is_chosen(test, OF_SERVER if is_long else OF_BOARD) != is_long]


def is_chosen(test, names):
    return test.id().rpartition(".")[2] in names


def pages(options, folder):
    """The page that is tested, and the same with small searches and with what the tests run in it."""
    made = folder / "page" / "hexd.html"
    made.parent.mkdir()
    text = options.page.read_text() if options.page else ""
    if not text or page.is_of_others(text):
        text = page.page(page.module_of(None))
    made.write_text(text)
    driver = "".join((HERE / name).read_text() for name in ("driver.js", "heap.js"))
    for old, new in (
        (page.settings(None), page.settings({"playouts": SMALL, "weight": 0})),
        ("'wasm-unsafe-eval'", f"'wasm-unsafe-eval' {page.hash_of(driver)}"),
        ("</body>", f"<script>{driver}</script>\n</body>"),
    ):
        text = page.put(text, old, new)
    small = folder / "hexd.html"
    small.write_text(text)
    return made, small


def chosen(names, is_long):
    """The tests whose names have one of these in them, or all."""
    loader = unittest.TestLoader()
    kinds = [Module, Heap, Page, *[InFirefox] * bool(is_long and FIREFOX)]
    suite = [test for it in kinds for test in loader.loadTestsFromTestCase(it)]
    suite += of_board(InBrowser.small, InBrowser.browser, is_long)
    return unittest.TestSuite(test for test in suite if not names or any(name in test.id() for name in names))


def run(options, folder):
    from tests.browser import Browser

    InBrowser.folder = folder
    InBrowser.file, InBrowser.small = pages(options, folder)
    InBrowser.browser = Browser()
    InBrowser.browser.driver.set_script_timeout(LONG_SECONDS if options.long else CALL_SECONDS)
    if options.long:
        InBrowser.sizes, InBrowser.games = LONG, LONG_GAMES
    told = io.StringIO()
    result = unittest.TextTestRunner(stream=told, verbosity=2).run(chosen(options.names, options.long))
    late = [test.id() for test, _ in result.failures + result.errors]
    # A browser on a busy machine may be late once, but not twice.
    if late:
        again = unittest.TextTestRunner(stream=io.StringIO()).run(chosen(late, options.long))
        if not again.wasSuccessful() or again.testsRun != len(late):
            print(told.getvalue(), file=sys.stderr)
            return 1
    for test, why in result.failures + result.errors:
        print(f"web/test.py: passed at the second try alone: {test.id()}\n{why}", file=sys.stderr)
    print(f"web/test.py: {result.testsRun} tests passed", file=sys.stderr)
    return 0


def main():
    become_system_python()
    parser = argparse.ArgumentParser(prog="web/test.py")
    parser.add_argument("--page", type=Path, metavar="FILE")
    parser.add_argument("--long", action="store_true")
    parser.add_argument("names", nargs="*", metavar="NAME")
    options = parser.parse_args()
    if why := missing():
        print(f"web/test.py: skipped, for {why}", file=sys.stderr)
        return 0
    folder = tempfile.mkdtemp(prefix="hexd-web-tests-")
    atexit.register(shutil.rmtree, folder, ignore_errors=True)
    os.environ["TMPDIR"] = tempfile.tempdir = folder
    try:
        return run(options, Path(folder))
    except build.Refused as fault:
        print(f"web/test.py: {fault}", file=sys.stderr)
        return 1


if __name__ == "__main__":
    sys.exit(main())
