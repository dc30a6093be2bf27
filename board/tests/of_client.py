"""The client of programs in Python, board/hexd.py: what it refuses to send, and time limits."""

import tempfile
import threading
import unittest
from pathlib import Path

from tests.support import LIMIT_SECONDS, is_running, until

import hexd

GAME = b"(;FF[4]GM[11]SZ[3];B[b2])"
# hexd answers none of these, or more than once: who waited for an answer to each would be out of step.
UNANSWERED = ["", " \t ", "# a comment", "  # a comment", "\0\r", "name\nversion", "name\n", "\nname", "play b a1 # \n"]
# A search that takes long.
LONG = ("--hsearch=off", "--playouts=1000000", "--size=11")

# Another program, whose lines end with a carriage return, and of which one command has a name in Latin-1.
OTHER = r"""
while read -r line; do
    case $line in
        name) printf '= other\r\n\r\n';;
        list_commands) printf '= name\r\ncaf\351\r\nquit\r\n\r\n';;
        *) printf '=  a\r\n1 .\r\n\r\n';;
    esac
done"""


class Lines(unittest.TestCase):
    """Lines that hexd doesn't answer once."""

    def test_a_line_that_is_not_answered_once_is_refused(self):
        with hexd.Engine.start("--size=3") as engine:
            for line in UNANSWERED:
                with self.subTest(line=line), self.assertRaises(ValueError):
                    engine.ask(line)
            # The session is in step.
            self.assertEqual(("hexd", "3"), (engine.ask("name").text, engine.ask("7 printsgf").text[16]))

    def test_lines_that_are_answered(self):
        with hexd.Engine.start("--size=3") as engine:
            for line, want in (
                ("name # who", "= hexd"),
                ("\tname", "= hexd"),
                ("5", "?5 syntax error"),
                ("na\0me\r", "= hexd"),
                ("#" + 5000 * "x", "? line too long"),
                ("é", "? unknown command"),
                ("\u200b\u00a0", "? unknown command"),
            ):
                with self.subTest(line=line):
                    self.assertEqual(want, engine.ask(line).whole)

    def test_a_line_that_is_no_text(self):
        with hexd.Engine.start("--size=3") as engine:
            with self.assertRaises(ValueError):
                engine.ask("play b \udcff")
            self.assertEqual("hexd", engine.ask("name").text)

    def test_another_program_of_gtp(self):
        """It may send carriage returns, and bytes that are no UTF-8."""
        answers = {"name": "other", "list_commands": "name\ncaf\ufffd\nquit", "showboard": " a\n1 ."}
        with hexd.Engine(["sh", "-c", OTHER]) as engine:
            for line, want in answers.items():
                with self.subTest(line=line):
                    self.assertEqual(hexd.Answer(True, want, f"= {want}"), engine.ask(line, seconds=LIMIT_SECONDS))


class Limits(unittest.TestCase):
    """Times after which nobody waits."""

    def test_an_answer_in_time(self):
        with hexd.Engine.start("--size=3") as engine:
            self.assertEqual("hexd", engine.ask("name", seconds=60).text)
            self.assertTrue(engine.load(GAME, seconds=60).done)
            self.assertEqual("none", engine.ask("winner").text)
            self.assertEqual(0, engine.close())

    def test_an_answer_that_comes_too_late(self):
        with hexd.Engine.start(*LONG) as engine:
            engine.ask("name")
            with self.assertRaises(hexd.EngineEnded) as ended:
                engine.ask("genmove b", seconds=0.05)
            self.assertEqual("hexd took longer than 0.05 seconds", str(ended.exception))
            until(lambda: not is_running(engine.process.pid), "it has ended")
            with self.assertRaises(hexd.EngineEnded):
                engine.ask("name")

    def test_who_waits_for_his_turn_has_his_own_time(self):
        with hexd.Engine.start("--hsearch=off", "--playouts=20000", "--size=11") as engine:
            said = []
            others = [threading.Thread(target=lambda: said.append(engine.ask("genmove b", seconds=60).done)) for _ in range(3)]
            for other in others:
                other.start()
            for other in others:
                other.join()
            self.assertEqual([True] * 3, said)

    def test_a_record_from_a_folder_with_any_name(self):
        with tempfile.TemporaryDirectory(prefix="a # b ") as folder:
            with hexd.Engine([hexd.PROGRAM, "htp"], Path(folder)) as engine:
                self.assertTrue(engine.load(GAME).done)
