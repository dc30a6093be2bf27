"""The server over its socket: what it refuses, sessions and their processes, and how it ends."""

import contextlib
import errno
import functools
import http.client
import io
import json
import lzma
import os
import re
import resource
import shutil
import signal
import socket
import tempfile
import threading
import time
import types
import unittest
import unittest.mock
from pathlib import Path

from tests.support import LIMIT_SECONDS, ROOT, Server, is_running, until

import connections
import handler
import hexd
import limits
import sessions
import settings
import troubles
from openings import Openings

RECORD = "(;FF[4]GM[11]SZ[3];B[a2];W[swap-pieces];B[c3])"
MOST = 1_048_576
GIVEN = settings.Given({"playouts": 1, "weight": 0}, 1)


class Requests(unittest.TestCase):
    """One server for all of these."""

    @classmethod
    def setUpClass(cls):
        cls.server = Server()

    @classmethod
    def tearDownClass(cls):
        cls.server.end()

    def tearDown(self):
        for name in getattr(self, "names", []):
            self.server.request("DELETE", f"session/{name}")

    def session(self):
        name = self.server.session()
        self.names = getattr(self, "names", []) + [name]
        return name

    def refused(self, status, got):
        self.assertEqual(status, got[0], got[1])
        self.assertEqual(1, len(got[1].splitlines()))

    def test_who_is_not_the_page_is_refused(self):
        own = f"http://127.0.0.1:{self.server.port}"
        self.assertEqual(200, self.server.request("GET", "")[0])
        self.assertEqual(200, self.server.request("GET", "", headers={"Origin": own})[0])
        self.refused(403, self.server.request("GET", "", token=""))
        self.refused(403, self.server.request("GET", "", token="x" * len(self.server.token)))
        self.refused(403, self.server.request("POST", "session", b"", token=""))
        for host in ("example.org", f"example.org:{self.server.port}", "127.0.0.1", "127.0.0.1:1", ""):
            got = self.server.request("POST", "session", b"", headers={"Host": host})
            why = f"the Host of the request is not this server, which is 127.0.0.1:{self.server.port}"
            self.assertEqual((403, why), got)
        for origin in ("null", "http://example.org", "http://127.0.0.1:1", own.replace("http", "https")):
            self.refused(403, self.server.request("POST", "session", b"", headers={"Origin": origin}))

    def raw(self, *parts):
        """The statuses of all answers to some bytes, until the server closes."""
        with socket.create_connection(("127.0.0.1", self.server.port), LIMIT_SECONDS) as connection:
            connection.sendall(b"".join(parts))
            got = b""
            while more := connection.recv(65_536):
                got += more
        return [int(status) for status in re.findall(rb"^HTTP/1.1 (\d+)", got, re.M)]

    def test_a_refused_body_is_no_request(self):
        own, token = f"127.0.0.1:{self.server.port}", self.server.token
        inner = f"GET /{token}/settings HTTP/1.1\r\nHost: {own}\r\nConnection: close\r\n\r\n".encode()
        post = "POST /{}/session HTTP/1.1\r\nHost: {}\r\n{}Content-Length: {}\r\n\r\n"
        foreign, long = "Origin: http://example.org\r\n", f"Content-Length: {len(inner)}\r\n"
        for head, status in (
            (post.format(token, own, foreign, len(inner)), 403),
            (post.format(token, "example.org", "", len(inner)), 403),
            (post.format("x", own, "", len(inner)), 403),
            # Another request behind one that is refused, behind a length that is none, and behind one of two.
            (post.format(token, own, foreign, 0), 403),
            (post.format(token, own, "", "+1"), 411),
            (post.format(token, own, long, 0), 411),
        ):
            with self.subTest(head=head):
                self.assertEqual([status], self.raw(head.encode(), inner))
        self.assertEqual([400, 200], self.raw(post.format(token, own, "", 1).encode(), b"x", inner))

    def test_what_is_too_long(self):
        name = self.session()
        self.refused(413, self.server.post(f"session/{name}/htp", b"x" * (MOST + 1)))
        self.refused(413, self.server.post(f"session/{name}/record", b"x" * (MOST + 1)))
        self.assertEqual((200, "? line too long"), self.server.post(f"session/{name}/htp", b"x" * MOST))
        self.assertEqual("= hexd", self.server.ask(name, "name"))

    def test_a_body_that_comes_with_its_head(self):
        """Its bytes don't count as those of the head."""
        name, own, record = self.session(), f"127.0.0.1:{self.server.port}", RECORD.encode().ljust(1_000_000)
        rest = f" HTTP/1.1\r\nHost: {own}\r\nContent-Length: {len(record)}\r\n"
        first, second = (f"POST /{self.server.token}/{path}{rest}" for path in ("none", f"session/{name}/record"))
        # Two over one connection.
        got = self.raw(f"{first}\r\n".encode(), record, f"{second}Connection: close\r\n\r\n".encode(), record)
        self.assertEqual([404, 200], got)
        self.assertEqual(f"= {RECORD}", self.server.ask(name, "printsgf"))

    def test_a_body_without_length(self):
        connection = http.client.HTTPConnection("127.0.0.1", self.server.port, timeout=LIMIT_SECONDS)
        connection.request("POST", f"/{self.server.token}/session", iter([b"name"]), encode_chunked=True)
        self.assertEqual(411, connection.getresponse().status)
        connection.close()

    def test_lines_that_are_not_sent_on(self):
        name = self.session()
        lines = ["name\n", "name\nname", "", " ", "# name", "7", "name\r", "na\x01me", "n\u00e4me"]
        lines += ["quit", "7 quit", " quit", "quit#", "quit now", "loadsgf game.sgf", "1 loadsgf /etc/passwd", "loadsgf"]
        for line in lines:
            with self.subTest(line=line):
                self.refused(400, self.server.post(f"session/{name}/htp", line.encode()))
        self.assertEqual("=12 hexd", self.server.ask(name, "12 name # which?"))
        self.assertEqual("? unknown command", self.server.ask(name, "Quit"))

    def test_what_is_not_there(self):
        name = self.session()
        self.refused(404, self.server.post("session/none/htp", b"name"))
        self.refused(404, self.server.request("DELETE", "session/none"))
        for path in ("none", f"session/{name}", f"session/{name}/other", "session/", f"session/{name}/htp/x"):
            self.refused(404, self.server.post(path, b"name"))
        paths = ("none.js", "../serve.py", "..%2fserve.py", "session", "page/board.js", "openings/12-a1", "openings/../x")
        for path in paths:
            self.refused(404, self.server.request("GET", path))
        self.assertEqual((501, "Unsupported method ('PUT')"), self.server.request("PUT", f"session/{name}", b"name"))
        self.assertEqual(200, self.server.request("DELETE", f"session/{name}")[0])
        self.refused(404, self.server.post(f"session/{name}/htp", b"name"))

    def test_sessions_are_few(self):
        for _ in range(sessions.MOST_SESSIONS):
            self.session()
        self.refused(429, self.server.post("session"))
        self.assertEqual(sessions.MOST_SESSIONS, len(self.server.engines()))
        self.server.request("DELETE", f"session/{self.names[0]}")
        self.assertEqual((200, "there is room"), self.server.post("room"))
        self.session()
        # Room is made of the one that was idle longest.
        self.server.ask(self.names[1], "name")
        self.assertEqual((200, "ended"), self.server.post("room"))
        self.assertEqual((410, "another page needed its place"), self.server.post(f"session/{self.names[2]}/htp", b"name"))
        self.assertEqual("= hexd", self.server.ask(self.names[1], "name"))
        self.session()

    def test_a_game_to_its_end(self):
        name, colour = self.session(), "b"
        self.server.ask(name, "boardsize 5")
        while self.server.ask(name, "winner") == "= none":
            self.assertRegex(self.server.ask(name, f"genmove {colour}"), "^= [a-e][1-5]$")
            colour = "w" if colour == "b" else "b"
        self.assertIn(self.server.ask(name, "winner"), ("= black", "= white"))
        self.assertEqual("? game over", self.server.ask(name, "genmove b"))

    def test_sessions_do_not_mix(self):
        one, two = self.session(), self.session()
        for name, size in ((one, 3), (two, 4)):
            self.server.ask(name, f"boardsize {size}")
        self.server.ask(one, "play b a1")
        self.server.ask(two, "play b d4")
        self.assertEqual("= (;FF[4]GM[11]SZ[3];B[a1])", self.server.ask(one, "printsgf"))
        self.assertEqual("= (;FF[4]GM[11]SZ[4];B[d4])", self.server.ask(two, "printsgf"))

    def test_one_line_at_a_time(self):
        name, answers = self.session(), {}

        def ask(number):
            answers[number] = self.server.ask(name, f"{number} {'genmove b' if number % 4 else 'name'}")

        threads = [threading.Thread(target=ask, args=(number,)) for number in range(1, 13)]
        for thread in threads:
            thread.start()
        for thread in threads:
            thread.join(LIMIT_SECONDS)
        self.assertEqual(set(range(1, 13)), set(answers))
        for number, answer in answers.items():
            self.assertTrue(answer.startswith(f"={number} "), answer)

    def test_records(self):
        name = self.session()
        self.assertEqual((200, "= "), self.server.post(f"session/{name}/record", RECORD.encode()))
        self.assertEqual(f"= {RECORD}", self.server.ask(name, "printsgf"))
        for wrong in (b"", b"(;GM[1])", RECORD.replace("c3", "z9").encode(), b"\xff" * 9):
            self.assertEqual((200, "? cannot load file"), self.server.post(f"session/{name}/record", wrong))
        self.assertEqual(f"= {RECORD}", self.server.ask(name, "printsgf"))

    def test_settings(self):
        status, text = self.server.request("GET", "settings")
        want = {"table": settings.TABLE, "guessed": settings.GUESSED, "started": {"playouts": 200, "weight": 0}, "workers": 1}
        self.assertEqual((200, want), (status, json.loads(text)))
        wrong = ["playouts=0", "x", "playouts=1000001", "look=-1", "solve=1e3", "weight", "workers=2", "look=1 look=1", "--look=1"]
        for options in wrong:
            self.refused(400, self.server.post("session", options.encode()))
        status, name = self.server.post("session", b"playouts=7 weight=20")
        self.names = [name]
        self.server.ask(name, "boardsize 4")
        self.server.ask(name, "genmove b")
        said = self.server.ask(name, "search-report")
        self.assertIn(said.splitlines()[0], ("= playouts 7", "? no search"))

    def test_the_solver(self):
        name = self.session()
        status, said = self.server.post(f"session/{name}/solve/100000", b"(;GM[11]SZ[3];B[b2])")
        first, _, certificate = said.partition("\n")
        self.assertEqual((200, "won black"), (status, first))
        self.assertEqual((200, "yes full"), self.server.post(f"session/{name}/check", f"{certificate}\n".encode()))
        self.assertEqual((200, "not a game"), self.server.post(f"session/{name}/solve/1", b"x"))
        self.assertEqual(200, self.server.post(f"session/{name}/solve/1", b"(;GM[11]SZ[5])")[0])
        for budget in ("0", "x", "01", "-1", ""):
            self.refused(404, self.server.post(f"session/{name}/solve/{budget}", b""))
        self.refused(404, self.server.post("session/none/solve/1", b""))

    def test_a_session_that_ends_ends_its_solver(self):
        name, got = self.session(), []
        record = b"(;GM[11]SZ[9];B[a1])"
        asking = threading.Thread(target=lambda: got.append(self.server.post(f"session/{name}/solve/1000000000", record)))
        before = set(self.server.engines())
        asking.start()
        until(lambda: len(set(self.server.engines()) - before) == 1, "the solver is at work")
        self.server.request("DELETE", f"session/{name}")
        asking.join(LIMIT_SECONDS)
        self.assertIn(got[0][0], (410, 500))
        self.assertEqual(set(), set(self.server.engines()) - before)

    def solve(self, name, record=b"(;GM[11]SZ[9];B[a1])"):
        """Asks who wins a position, for longer than any test takes; and gives the connection, before it is answered."""
        connection = socket.create_connection(("127.0.0.1", self.server.port), LIMIT_SECONDS)
        head = f"POST /{self.server.token}/session/{name}/solve/1000000000 HTTP/1.1\r\nHost: 127.0.0.1:{self.server.port}\r\n"
        connection.sendall(f"{head}Content-Length: {len(record)}\r\n\r\n".encode() + record)
        self.addCleanup(connection.close)
        return connection

    def solvers(self, count, before):
        """So many solvers beside the processes that there were, and no more."""

        def found():
            others = set(self.server.engines()) - before
            return [others] if len(others) == count else None

        return until(found, f"{count} solvers are at work")[0]

    def test_a_solver_ends_with_its_session(self):
        """Also if another one of the session has ended before."""
        name = self.session()
        before = set(self.server.engines())
        self.solve(name)
        solvers = self.solvers(1, before)
        self.assertEqual(200, self.server.post(f"session/{name}/solve/100000", b"(;GM[11]SZ[3];B[b2])")[0])
        self.server.request("DELETE", f"session/{name}")
        until(lambda: not any(map(is_running, solvers)), "the solver has ended")

    def test_a_solver_ends_with_its_request(self):
        name = self.session()
        before = set(self.server.engines())
        connections = [self.solve(name) for _ in range(3)]
        self.solvers(3, before)
        for connection in connections:
            connection.close()
        self.solvers(0, before)
        self.assertEqual("= hexd", self.server.ask(name, "name"))

    def test_solvers_are_few(self):
        name = self.session()
        before = set(self.server.engines())
        connections = [self.solve(name) for _ in range(sessions.MOST_SOLVERS)]
        self.solvers(sessions.MOST_SOLVERS, before)
        self.refused(429, self.server.post(f"session/{name}/solve/1", b"(;GM[11]SZ[3])"))
        connections[0].close()
        self.solvers(sessions.MOST_SOLVERS - 1, before)
        # A process is gone a moment before the server has counted it out.
        asked = functools.partial(self.server.post, f"session/{name}/solve/100000", b"(;GM[11]SZ[3])")
        until(lambda: asked()[0] == 200, "there is room for one solver more")

    def test_processes_have_limits(self):
        """Of memory and of the processor's time, as they fit what is asked."""
        name = self.session()
        (engine,) = self.server.engines()
        self.solve(name)
        (solver,) = self.solvers(1, {engine})
        for process, memory, seconds in (
            (engine, limits.SESSION_BYTES + limits.WORKER_BYTES, limits.SESSION_SECONDS),
            (solver, limits.MOST_BYTES, limits.MOST_SECONDS),
        ):
            # That of time is set last, a moment after the process is there.
            until(lambda: resource.prlimit(process, resource.RLIMIT_CPU) == (seconds, seconds + 1), "its time has a limit")
            self.assertEqual((memory, memory), resource.prlimit(process, resource.RLIMIT_AS))

    def test_a_broken_head_is_no_request(self):
        """One that breaks off, or whose lengths may stand in what can't be read, makes nothing; nor is its body a request."""
        own = f"127.0.0.1:{self.server.port}"
        inner = f"GET /{self.server.token}/settings HTTP/1.1\r\nHost: {own}\r\nConnection: close\r\n\r\n".encode()
        head = f"POST /{self.server.token}/session HTTP/1.1\r\nHost: {own}\r\n"
        before = self.server.engines()
        for line in (f"Content-Length : {len(inner)}", f"no header\r\nContent-Length: {len(inner)}", f"\u00e9: x\r\nContent-Length: {len(inner)}"):
            with self.subTest(line=line):
                self.assertEqual([400], self.raw(f"{head}{line}\r\n\r\n".encode("latin-1"), inner))
        for cut in (head, head[:-2], head + "Content-Length: 0", head[:-6], head.split("\r")[0]):
            with self.subTest(cut=cut), socket.create_connection(("127.0.0.1", self.server.port), LIMIT_SECONDS) as connection:
                connection.sendall(cut.encode())
                connection.shutdown(socket.SHUT_WR)
                self.assertRegex(connection.makefile("rb").read(), b"^HTTP/1.1 400 ")
        # A body that breaks off.
        with socket.create_connection(("127.0.0.1", self.server.port), LIMIT_SECONDS) as connection:
            connection.sendall(f"{head}Content-Length: 9\r\n\r\nlook=1".encode())
            connection.shutdown(socket.SHUT_WR)
            self.assertRegex(connection.makefile("rb").read(), b"^HTTP/1.1 400 ")
        self.assertEqual(before, self.server.engines())

    def test_openings_of_a_size(self):
        status, text = self.server.request("GET", "openings/3")
        found = json.loads(text)
        self.assertEqual((200, 9, "black", "white"), (status, len(found), found["b2"], found["a1"]))
        self.assertEqual((200, '"white"'), self.server.request("GET", "openings/3-c3"))
        self.assertEqual((200, "{}"), self.server.request("GET", "openings/11"))
        for path in ("openings/12", "openings/0", "openings/", "openings/3-"):
            self.refused(404, self.server.request("GET", path))

    def test_certificates_of_openings(self):
        """That of an opening's file, and the turned one of the opposite cell; a second process accepts both."""
        of_file = lzma.decompress((ROOT / "openings" / "3-a1.cert.xz").read_bytes()).decode()
        status, own = self.server.request("GET", "openings/3-a1/certificate")
        self.assertEqual((200, of_file), (status, own + "\n"))
        status, opposite = self.server.request("GET", "openings/3-c3/certificate")
        self.assertEqual((200, "black c3"), (status, opposite.splitlines()[3]))
        self.assertEqual("yes semi", hexd.check(f"{opposite}\n".encode()))
        for path in ("openings/11-a1/certificate", "openings/3/certificate", "openings/3-d1/certificate", "openings/3-a1/x"):
            self.refused(404, self.server.request("GET", path))

    def test_certificates(self):
        name = self.session()
        right = (ROOT / "examples/certificates/v1.cert").read_bytes()
        self.assertEqual((200, "yes semi"), self.server.post(f"session/{name}/check", right))
        self.assertEqual((200, "no 6 9"), self.server.post(f"session/{name}/check", right.replace(b"or 4 5", b"or 4 4")))
        self.refused(404, self.server.post("session/none/check", right))

    def test_a_killed_process(self):
        other, before = self.session(), set(self.server.engines())
        name = self.session()
        (victim,) = set(self.server.engines()) - before
        os.kill(victim, signal.SIGKILL)
        until(lambda: not is_running(victim), "the process has ended")
        for path, body in (("htp", b"name"), ("htp", b"name"), ("record", RECORD.encode()), ("check", b"")):
            got = self.server.post(f"session/{name}/{path}", body)
            self.assertEqual((410, "hexd was ended by signal 9 (Killed)"), got)
        self.assertEqual(before, set(self.server.engines()))
        self.assertEqual("= hexd", self.server.ask(other, "name"))

    def test_want_of_memory(self):
        name = self.session()
        self.server.ask(name, "name")
        for pid in self.server.engines():
            # Of data alone, so that the stack may grow.
            resource.prlimit(pid, resource.RLIMIT_DATA, (1 << 20, 1 << 20))
        got = self.server.post(f"session/{name}/htp", b"genmove b")
        self.assertEqual((410, "hexd ended with status 5 (hexd: out of memory)"), got)

    def test_a_full_disk(self):
        name = self.session()
        self.server.ask(name, "boardsize 3")
        # No file of the server's may have a byte.
        resource.prlimit(self.server.process.pid, resource.RLIMIT_FSIZE, (0, resource.RLIM_INFINITY))
        status, said = self.server.post(f"session/{name}/record", RECORD.encode())
        resource.prlimit(self.server.process.pid, resource.RLIMIT_FSIZE, (resource.RLIM_INFINITY, resource.RLIM_INFINITY))
        self.assertEqual(500, status)
        self.assertRegex(said, "^hexd can't be given the game by a file of .*: File too large. Nothing is lost: .* files be larger")
        self.assertEqual((200, "= "), self.server.post(f"session/{name}/record", RECORD.encode()))

    def test_a_folder_that_is_taken_away(self):
        name = self.session()
        (pid,) = self.server.engines()
        folder = Path(os.readlink(f"/proc/{pid}/cwd")).parent
        shutil.rmtree(folder)
        got = self.server.post(f"session/{name}/record", RECORD.encode())
        self.assertEqual((410, "its folder was taken away"), got)
        self.assertEqual((200, "= "), self.server.post(f"session/{self.session()}/record", RECORD.encode()))

    def test_many_requests_leave_nothing(self):
        name = self.session()
        self.server.ask(name, "name")
        settled = until(lambda: self.settled(), "the server is at rest")
        for number in range(200):
            self.server.ask(name, f"{number} showboard")
            if number % 20 == 0:
                self.server.request("DELETE", f"session/{self.server.session()}")
        until(lambda: self.server.held() == settled, "files and threads are as before")
        self.assertEqual(1, len(self.server.engines()))

    def settled(self):
        held = self.server.held()
        time.sleep(0.3)
        return held if held == self.server.held() else None


class Slow(unittest.TestCase):
    """Clients that keep connections open and send little. Any user of the machine can be one, without the token."""

    def served(self, server):
        """Has a server of this process serve until the test ends."""
        threading.Thread(target=server.serve_forever, daemon=True).start()
        self.addCleanup(server.server_close)
        self.addCleanup(server.shutdown)
        return ("127.0.0.1", server.server_port)

    def drip(self, place, count):
        """Opens so many connections, each of which begins a request and sends a byte now and then; they are opened anew."""
        open_, ended = [], threading.Event()

        def go_on():
            while not ended.wait(0.5):
                for at, connection in enumerate(open_):
                    try:
                        connection.send(b"x")
                    except OSError:
                        connection.close()
                        with contextlib.suppress(OSError):
                            open_[at] = socket.create_connection(place, LIMIT_SECONDS)

        for _ in range(count):
            open_.append(socket.create_connection(place, LIMIT_SECONDS))
        dripping = threading.Thread(target=go_on, daemon=True)
        dripping.start()
        self.addCleanup(lambda: (ended.set(), dripping.join(LIMIT_SECONDS), [connection.close() for connection in open_]))

    def test_the_page_is_served_beside_them(self):
        """Also if the server may have fewer files than there are connections."""
        with Server(before=("prlimit", "--nofile=100")) as server:
            self.drip(("127.0.0.1", server.port), 300)
            for _ in range(5):
                self.assertEqual(200, server.request("GET", "")[0])
            name = server.session()
            self.assertEqual("= hexd", server.ask(name, "name"))

    def test_a_head_has_a_time(self):
        """However often a byte of it comes."""
        with unittest.mock.patch.object(handler, "HEAD_SECONDS", 1):
            with socket.create_connection(self.served(handler.Server("127.0.0.1", 0, None, None)), LIMIT_SECONDS) as slow:
                slow.sendall(b"GET / HTTP/1.1\r\nx: ")
                slow.settimeout(0.2)
                until(lambda: self.is_closed(slow), "the connection is closed")

    def is_closed(self, connection):
        try:
            connection.send(b"x")
            return connection.recv(100) == b""
        except TimeoutError:
            return False
        except ConnectionError:
            return True

    def long_head(self, server, size, line=""):
        """A head of so many bytes, which has each line that it needs, without the empty one at its end."""
        head = f"POST /{server.token}/none HTTP/1.1\r\nHost: 127.0.0.1:{server.server_port}\r\n{line}".encode()
        filling = b"x: " + 30_000 * b"x" + b"\r\n"
        while size - len(head) > 2 * len(filling):
            head += filling
        return (head + b"x: ").ljust(size - 2, b"x") + b"\r\n"

    def answered(self, place, text):
        """The first line of the answer to some bytes; none if the server closes the connection without one."""
        with contextlib.suppress(ConnectionError), socket.create_connection(place, LIMIT_SECONDS) as connection:
            connection.sendall(text)
            return connection.makefile("rb").readline()
        return b""

    def in_pieces(self, sizes):
        """Has the first reads of what a client sends give so many bytes at most."""
        pieces, whole = iter(sizes), connections.Line.readinto

        def read(line, room):
            return whole(line, room[: next(pieces, None)])

        return unittest.mock.patch.object(connections.Line, "readinto", read)

    def test_a_head_has_a_length(self):
        """One within it is taken, and a body behind it, in whatever pieces both come."""
        server = handler.Server("127.0.0.1", 0, None, None)
        place, most = self.served(server), connections.MOST_HEAD_BYTES
        body, line = 1_000_000 * b"x", "Connection: close\r\nContent-Length: 1000000\r\n"
        for sizes in ((), (1,), (1, 100), (1, 8_191, 7)):
            with self.subTest(sizes=sizes), self.in_pieces(sizes):
                head = self.long_head(server, most - 2, line) + b"\r\n"
                self.assertEqual(b"HTTP/1.1 404 Not Found\r\n", self.answered(place, head + body))
        self.assertEqual(b"", self.answered(place, self.long_head(server, most + 30_000, line) + b"\r\n" + body))

    def test_long_heads_fill_nothing(self):
        """Each is cut off long before its time is over."""
        server = handler.Server("127.0.0.1", 0, None, None)
        with unittest.mock.patch.object(handler, "HEAD_SECONDS", 10 * LIMIT_SECONDS):
            place, head = self.served(server), self.long_head(server, connections.MOST_HEAD_BYTES + 30_000)
            clients = [socket.create_connection(place, LIMIT_SECONDS) for _ in range(connections.most() // 2)]
            for client in clients:
                self.addCleanup(client.close)
                with contextlib.suppress(ConnectionError):
                    client.sendall(head)
                client.settimeout(0.2)
            for client in clients:
                until(lambda: self.is_closed(client), "the connection is closed")  # noqa: B023
            until(lambda: not server.connections.waiting, "none is counted")
            short = self.long_head(server, 1_000) + b"\r\n"
            self.assertEqual(b"HTTP/1.1 404 Not Found\r\n", self.answered(place, short))

    def test_which_one_gives_way(self):
        pairs = [socket.socketpair() for _ in range(4)]
        for pair in pairs:
            for connection in pair:
                self.addCleanup(connection.close)
        ours, theirs = zip(*pairs)
        table = connections.Connections(2)
        self.assertTrue(table.begin(ours[0]) and table.begin(ours[1]))
        table.set_waiting(ours[0], False)
        # The first one is at work, so the second one goes.
        self.assertTrue(table.begin(ours[2]))
        self.assertEqual(b"", theirs[1].recv(1))
        table.set_waiting(ours[2], False)
        self.assertFalse(table.begin(ours[3]))
        table.end(ours[0])
        self.assertTrue(table.begin(ours[3]))


class Names(unittest.TestCase):
    """The names by which a request may call the server."""

    def hosts(self, name, port, reached="192.0.2.1"):
        server = types.SimpleNamespace(server_name=name, server_port=port, is_local=lambda: name == "127.0.0.1")
        with unittest.mock.patch.object(socket, "gethostname", lambda: "Big-Machine"):
            return handler.Server.hosts(server, reached)

    def test_the_port_of_http_may_be_left_out(self):
        self.assertEqual(["127.0.0.1:80", "localhost:80", "127.0.0.1", "localhost"], self.hosts("127.0.0.1", 80))
        self.assertEqual(["127.0.0.1:8080", "localhost:8080"], self.hosts("127.0.0.1", 8080))
        self.assertEqual(["[2001:db8::1]:80", "[2001:db8::1]"], self.hosts("2001:db8::1", 80))
        names = ["192.0.2.1", "localhost", "big-machine"]
        self.assertEqual([f"{name}:80" for name in names] + names, self.hosts("0.0.0.0", 80))

    def test_a_name_in_capitals(self):
        """A browser sends it in small letters."""
        self.assertEqual("big-machine:8080", self.hosts("::", 8080)[-1])
        server = handler.Server("0.0.0.0", 0, None, None)
        threading.Thread(target=server.serve_forever, daemon=True).start()
        self.addCleanup(server.server_close)
        self.addCleanup(server.shutdown)
        with unittest.mock.patch.object(socket, "gethostname", lambda: "Big-Machine"):
            connection = http.client.HTTPConnection("127.0.0.1", server.server_port, timeout=LIMIT_SECONDS)
            self.addCleanup(connection.close)
            self.assertTrue(server.address().startswith(f"http://big-machine:{server.server_port}/"), server.address())
            connection.request("GET", f"/{server.token}/", headers={"Host": f"big-machine:{server.server_port}"})
            self.assertEqual(200, connection.getresponse().status)


class Troubles(unittest.TestCase):
    """What the system refuses the server."""

    def refused(self, table, what):
        with self.assertRaises(sessions.Refusal) as refused:
            what(table)
        self.assertEqual(500, refused.exception.status)
        return refused.exception.why

    def test_each_has_its_words(self):
        with tempfile.TemporaryDirectory() as folder:
            place, program = Path(folder) / "a file", Path(folder) / "program"
            place.touch()
            table = sessions.Sessions(hexd.PROGRAM, GIVEN, [], place)
            self.assertRegex(self.refused(table, lambda table: table.make()), "folder .* can't be written: Not a directory. Nothing")
            table = sessions.Sessions(program, GIVEN, [], folder)
            gone = rf"the program {program} can't be started: No such file or directory. Nothing is lost: .* Put it back"
            self.assertRegex(self.refused(table, lambda table: table.make()), gone)
            # Nothing is left of a session that did not begin.
            self.assertEqual(["a file"], os.listdir(folder))
            table = sessions.Sessions(hexd.PROGRAM, GIVEN, [], folder)
            name = table.make()
            table.program = program
            self.assertRegex(self.refused(table, lambda table: table.check(name, b"")), gone)
            self.assertRegex(self.refused(table, lambda table: table.solve(name, b"", 1)), gone)
            table.close()

    def test_a_full_disk_says_what_to_do(self):
        for number, advice in ((errno.ENOSPC, "Make room"), (errno.EMFILE, "Close pages"), (errno.EIO, "Start bin/hexd-board")):
            self.assertIn(f"{os.strerror(number)}. {troubles.KEPT} {advice}", troubles.told("it", OSError(number, "")))

    def test_a_fault_of_the_server(self):
        """It is answered, and told on the terminal."""
        server = handler.Server("127.0.0.1", 0, None, None)
        threading.Thread(target=server.serve_forever, daemon=True).start()
        connection = http.client.HTTPConnection("127.0.0.1", server.server_port, timeout=LIMIT_SECONDS)
        with contextlib.redirect_stderr(io.StringIO()) as told:
            connection.request("POST", f"/{server.token}/room")
            answer = connection.getresponse()
            got = answer.status, answer.read().decode()
            until(lambda: "AttributeError" in told.getvalue(), "the terminal has more")
        connection.close()
        server.shutdown()
        server.server_close()
        self.assertEqual(500, got[0])
        self.assertTrue(got[1].startswith("the server has a fault, AttributeError, "), got[1])


class Shelves(unittest.TestCase):
    """Openings whose winner a certificate shows."""

    def test_an_opening(self):
        with tempfile.TemporaryDirectory() as folder, hexd.Engine([hexd.PROGRAM, "htp", "--size", "3"], folder) as engine:
            engine.ask("play b a1")
            engine.ask("genmove w")
            certificate = engine.ask("wincert").text + "\n"
            claim = certificate.splitlines()[-1]
            for name, text in (
                ("3-a1", certificate),
                # Other openings' files with it, one of a claim that does not hold, and what is no certificate.
                ("3-b1", certificate),
                ("4-a1", certificate),
                ("3-a2", certificate.replace("black a1", "black a2").replace(claim, "semi 0")),
                ("3-c1", "x"),
            ):
                (Path(folder) / f"{name}.cert.xz").write_bytes(lzma.compress(text.encode()))
            (Path(folder) / "3-b2.cert.xz").write_bytes(b"no such format")
            openings = Openings(hexd.PROGRAM, folder)
            found = {vertex: openings.winner(3, vertex) for vertex in ("a1", "b1", "c1", "a2", "b2", "a3", "c3")}
            # c3 is opposite to a1.
            self.assertEqual({"a1": "white", "c3": "white"}, {vertex: winner for vertex, winner in found.items() if winner})
            self.assertIsNone(openings.winner(4, "a1"))
            given = {vertex: openings.certificate(3, vertex) for vertex in ("a1", "a2")}
            self.assertEqual({"a1": certificate, "a2": None}, given)
            self.assertIsNone(Openings(hexd.PROGRAM, Path(folder) / "none").winner(3, "a1"))
