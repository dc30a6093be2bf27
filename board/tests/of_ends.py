"""Servers that are started with other words, elsewhere, and ended, each in another way."""

import http.client
import json
import os
import signal
import socket
import subprocess
import tempfile
import threading
import unittest
import unittest.mock
from pathlib import Path
from urllib.parse import urlsplit

from tests.support import LIMIT_SECONDS, ROOT, Server, dying, first_line, is_running, unheard, until

import hexd
import sessions
import settings

# Of a search that takes long.
LONG = {"playouts": 1_000_000, "weight": 0}


class Ends(unittest.TestCase):
    """Servers that are started and ended, each in another way."""

    def test_by_signals(self):
        for number, status in ((signal.SIGINT, 0), (signal.SIGTERM, 143), (signal.SIGHUP, 129), (signal.SIGKILL, -9)):
            with self.subTest(signal=number):
                server = Server()
                server.session(), server.session()
                pids = server.engines()
                self.assertEqual(2, len(pids))
                self.assertEqual(status, server.end(number))
                until(lambda: not any(map(is_running, pids)), "its processes have ended")

    def test_a_solver_ends_with_the_server(self):
        for number in (signal.SIGTERM, signal.SIGKILL):
            with self.subTest(signal=number):
                server = Server()
                name, before = server.session(), set(server.engines())
                path, record = f"session/{name}/solve/1000000000", b"(;GM[11]SZ[9];B[a1])"
                asking = threading.Thread(target=lambda: attempt_post(server, path, record))
                asking.start()
                (solver,) = until(lambda: set(server.engines()) - before, "the solver is at work")
                server.end(number)
                until(lambda: not is_running(solver), "it has ended")
                asking.join(LIMIT_SECONDS)

    def test_while_it_thinks(self):
        for number, status in ((signal.SIGINT, 0), (signal.SIGKILL, -9)):
            with self.subTest(signal=number):
                server = Server("--playouts", "1000000", "--hsearch", "off")
                name, got = server.session(), []
                thinking = threading.Thread(target=lambda: got.append(attempt(server, name)))
                thinking.start()
                (pid,) = until(server.engines, "there is a process")
                # One that is stopped meets no end of its input, nor does one that thinks.
                os.kill(pid, signal.SIGSTOP)
                self.assertEqual(status, server.end(number))
                until(lambda: not is_running(pid), "its process has ended")
                thinking.join(LIMIT_SECONDS)
                self.assertFalse(thinking.is_alive())

    def test_a_taken_port(self):
        with Server() as server:
            again = ran("--port", str(server.port))
            self.assertEqual((1, ""), (again.returncode, again.stdout))
            self.assertEqual(1, len(again.stderr.splitlines()))
        with Server(port=()) as one, Server(port=()) as two:
            self.assertLess(one.port, two.port)
            self.assertEqual(200, two.request("GET", "")[0])

    def test_a_server_that_is_started_anew(self):
        """Its address is as before, by a file that its user alone may read; by one of others it is another."""
        with tempfile.TemporaryDirectory() as folder, socket.socket() as free:
            free.bind(("127.0.0.1", 0))
            port = str(free.getsockname()[1])
            free.close()
            environment = {"XDG_STATE_HOME": folder}

            def address(port=port, *words):
                with Server(port=("--port", port), words=words, environment=environment) as server:
                    return server.address

            first = address()
            (file,) = Path(folder, "hexd").iterdir()
            self.assertEqual((f"board-{port}.token", 0o600, 0o700), (file.name, file.stat().st_mode & 0o777, file.parent.stat().st_mode & 0o777))
            self.assertEqual(first, address())
            for change in (lambda: file.chmod(0o640), lambda: file.write_text("x"), file.unlink, lambda: to_link(file)):
                change()
                self.assertNotEqual(first, first := address())
                self.assertEqual(0o600, file.lstat().st_mode & 0o777)
            file.with_name("other").unlink()
            # What others may put a file into keeps nothing, nor is a port kept that comes by chance, or a line that others read.
            file.parent.chmod(0o777)
            self.assertNotEqual(address(), address())
            file.parent.chmod(0o700)
            address("0"), address(port, "--listen", "0.0.0.0")
            self.assertEqual([file], list(file.parent.iterdir()))
            self.assertEqual(first, address())

    def test_on_this_machine_alone(self):
        with Server() as server, self.assertRaises(OSError):
            socket.create_connection(("127.0.0.2", server.port), LIMIT_SECONDS)

    def test_wrong_words(self):
        hexds = "hexd: usage\nhexd-board: hexd refuses these words: "
        for words, said in (
            (["--", "--size", "12"], hexds + f"{BEST} --size 12\n"),
            (["--plyouts", "5"], "hexd-board: unrecognized arguments: --plyouts 5 (--help has all words)\n"),
            (["--playouts", "0"], wrong("playouts", "0", "1 to 1,000,000")),
            (["--weight", "2000"], wrong("weight", "2000", "0 to 1,024")),
            (["--workers=x"], wrong("workers", "x", "1 to 64")),
            (["--port", "99999"], wrong("port", "99999", "0 to 65,535")),
            (["--", "--playouts", "0"], wrong("playouts", "0", "1 to 1,000,000")),
        ):
            with self.subTest(words=words):
                run = ran("--port", "0", *words)
                self.assertEqual((2, "", said), (run.returncode, run.stdout, run.stderr))

    def test_without_a_place_for_its_address(self):
        command = dying(ROOT / "bin/hexd-board", "--port", "0")
        with open("/dev/full", "w") as full:
            run = subprocess.run(command, stdin=subprocess.DEVNULL, stdout=full, stderr=subprocess.PIPE, timeout=LIMIT_SECONDS)
        self.assertEqual((1, b"hexd-board: No space left on device\n"), (run.returncode, run.stderr))

    def test_without_standard_error(self):
        for command in unheard(*dying(ROOT / "bin/hexd-board", "--port", "0")):
            with subprocess.Popen(command, stdin=subprocess.DEVNULL, stdout=subprocess.PIPE, text=True) as process:
                parts = urlsplit(first_line(process.stdout).strip())
                connection = http.client.HTTPConnection(parts.hostname, parts.port, timeout=LIMIT_SECONDS)
                connection.request("GET", parts.path)
                self.assertEqual(200, connection.getresponse().status)
                connection.close()
                process.send_signal(signal.SIGTERM)
                self.assertEqual(143, process.wait(LIMIT_SECONDS))

    def test_what_it_searches_with(self):
        workers = min(4, len(os.sched_getaffinity(0)))
        normal = {**settings.strength_options("normal", 11), "workers": workers}
        few = {"playouts": 500, "weight": 180, "workers": 2}
        for words, others, want, started in (
            ([], [], normal, False),
            (["--playouts", "500", "--weight", "180", "--workers", "2"], [], few, True),
            # A word of the user's own stands in the place of a strength's.
            ([], ["--look", "7"], {name: value for name, value in normal.items() if name != "look"}, False),
        ):
            with Server(*others, words=words, small=False) as server:
                told = json.loads(server.request("GET", "settings")[1])
                self.assertEqual((started, want["workers"]), (told["started"] is not None, told["workers"]))
                session = server.session()
                server.ask(session, "name")
                (pid,) = server.engines()
                given = Path(f"/proc/{pid}/cmdline").read_text().split("\0")
                self.assertEqual({*settings.words_of(want), *others[:1]}, {word for word in given if word.startswith("--")})
                self.assertEqual(200, server.request("DELETE", f"session/{session}")[0])
                server.end()
                how = f"searches with {settings.told(want)}" if started else "plays at the strength 'normal'"
                self.assertIn(f"hexd {how}", server.errors)

    def test_it_opens_a_browser(self):
        with tempfile.TemporaryDirectory() as folder:
            browser, opened = Path(folder) / "browser", Path(folder) / "opened"
            browser.write_text(f'#!/bin/sh\necho "$1" >{opened}.new; mv {opened}.new {opened}\n')
            browser.chmod(0o755)
            with Server(words=["--open"], environment={"BROWSER": f"{browser} %s"}) as server:
                until(opened.exists, "the browser is started")
                self.assertEqual(server.address, opened.read_text().strip())

    def test_it_listens_elsewhere(self):
        with Server(words=["--listen", "127.0.0.2"]) as server:
            self.assertEqual("127.0.0.2", server.host)
            self.assertEqual(200, server.request("GET", "")[0])
        with Server(words=["--listen", "0.0.0.0"]) as server:
            for host in ("127.0.0.1", "127.0.0.2"):
                server.host = host
                self.assertEqual(200, server.request("GET", "")[0])
                self.assertEqual(403, server.request("GET", "", token="x")[0])
                got = server.request("GET", "", headers={"Host": "example.org"})
                self.assertEqual((403, f"the Host of the request is not this server, which is {host}:{server.port}"), got)
            server.end()
            self.assertIn("hexd-board: warning: other machines can reach this server.", server.errors)
        self.assertEqual(1, ran("--port", "0", "--listen", "192.0.2.1").returncode)

    def test_an_idle_session(self):
        with tempfile.TemporaryDirectory() as folder:
            table = sessions.Sessions(hexd.PROGRAM, settings.Given.of({**settings.BEST, "weight": None}), [], folder)
            idle, used = table.make(), table.make()
            table.open[idle].used -= sessions.IDLE_SECONDS + 1
            table.end_idle()
            self.assertEqual("= hexd", table.ask(used, "name"))
            with self.assertRaises(sessions.Refusal) as refused:
                table.ask(idle, "name")
            self.assertEqual(410, refused.exception.status)
            table.close()
            self.assertEqual([], os.listdir(folder))

    def at_work(self, table):
        """Three sessions that were not used for an hour: one has a solver at work, one a search, and one nothing more."""
        solving, thinking, idle = [table.make(LONG) for _ in range(3)]
        record = b"(;GM[11]SZ[9];B[a1])"
        for work in (lambda: table.solve(solving, record, 10**9), lambda: table.ask(thinking, "genmove b")):
            working = threading.Thread(target=lambda work=work: self.assertRaises(sessions.Refusal, work))
            working.start()
            self.addCleanup(working.join, LIMIT_SECONDS)
        self.addCleanup(table.close)
        until(lambda: table.open[solving].solvers and table.open[thinking].engine.turn.locked(), "both are at work")
        table.ask(idle, "name")
        for session in table.open.values():
            session.used -= sessions.IDLE_SECONDS + 1
        return {solving, thinking}, idle

    def test_a_session_at_work(self):
        """It isn't idle, nor the first that has to make room."""
        with tempfile.TemporaryDirectory() as folder:
            table = sessions.Sessions(hexd.PROGRAM, settings.Given(LONG, 1), [], folder)
            working, idle = self.at_work(table)
            with unittest.mock.patch.object(sessions, "MOST_SESSIONS", 3):
                table.open[idle].used += sessions.IDLE_SECONDS
                self.assertEqual("ended", table.make_room())
            self.assertEqual(working, {*table.open})
            table.end_idle()
            self.assertEqual(working, {*table.open})
            self.doCleanups()


BEST = " ".join(settings.words_of({**settings.strength_options("normal", 11), "workers": settings.BEST["workers"]}))


def to_link(file):
    """Puts a link to a file of the same text in its place."""
    other = file.with_name("other")
    file.rename(other)
    file.symlink_to(other)


def wrong(name, word, span):
    return f"hexd-board: argument --{name}: '{word}' is no number from {span} (--help has all words)\n"


def ran(*words):
    """A start of the server that is refused."""
    command = dying(ROOT / "bin/hexd-board", *words)
    return subprocess.run(command, stdin=subprocess.DEVNULL, capture_output=True, text=True, timeout=LIMIT_SECONDS)


def attempt_post(server, path, body):
    try:
        return server.post(path, body)
    except (OSError, http.client.HTTPException) as fault:
        return str(fault)


def attempt(server, name):
    try:
        return server.ask(name, "genmove b")
    except (AssertionError, OSError, http.client.HTTPException) as fault:
        return str(fault)
