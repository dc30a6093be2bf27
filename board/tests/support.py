"""What the tests share: a server of their own, requests to it, and what the system knows of its processes."""

import atexit
import http.client
import os
import queue
import shutil
import signal
import subprocess
import sys
import threading
import time
from pathlib import Path
from urllib.parse import urlsplit

ROOT = Path(__file__).resolve().parent.parent.parent
sys.path.insert(0, str(ROOT / "board"))

# A small search: the tests are not about its strength.
SMALL = ["--playouts", "200", "--workers", "1"]
# Long enough for a machine that is busy with other work. No test asserts a time.
LIMIT_SECONDS = 90


def dying(*command):
    """A command whose process ends when the test's does, however that comes."""
    setpriv = shutil.which("setpriv")
    return [setpriv, "--pdeathsig", "TERM", "--", *map(str, command)] if setpriv else list(map(str, command))


def unheard(*command):
    """Commands whose lines on standard error are lost: it is closed, or full."""
    return [["bash", "-c", f'exec "$@" {stream}', "bash", *map(str, command)] for stream in ("2>&-", "2>/dev/full")]


def until(what, why, limit=LIMIT_SECONDS):
    """The first true value of a function."""
    end = time.monotonic() + limit
    while not (value := what()):
        if time.monotonic() > end:
            raise AssertionError(f"after {limit} seconds still not: {why}")
        time.sleep(0.05)
    return value


def children(pid):
    """The processes that a process has started."""
    found = []
    for stat in Path("/proc").glob("[0-9]*/stat"):
        try:
            words = stat.read_text().rpartition(")")[2].split()
        except OSError:
            continue
        if int(words[1]) == pid and words[0] != "Z":
            found.append(int(stat.parent.name))
    return found


def is_running(pid):
    try:
        return Path(f"/proc/{pid}/stat").read_text().rpartition(")")[2].split()[0] != "Z"
    except OSError:
        return False


def first_line(stream):
    """The first line of a process's output, within the limit."""
    lines = queue.Queue()
    threading.Thread(target=lambda: lines.put(stream.readline()), daemon=True).start()
    try:
        return lines.get(timeout=LIMIT_SECONDS)
    except queue.Empty:
        return ""


class Server:
    """The server as a user starts it, on a free port."""

    def __init__(self, *options, port=("--port", "0"), words=(), environment=None, small=True, before=()):
        """`options` are hexd's own words, those of a small search where none are given, and `words` the server's; `before` stands
        before all of it."""
        self.process = subprocess.Popen(
            dying(*before, ROOT / "bin" / "hexd-board", *port, *words, "--", *(options or (SMALL if small else ()))),
            stdin=subprocess.DEVNULL,
            stdout=subprocess.PIPE,
            stderr=subprocess.PIPE,
            text=True,
            env={**os.environ, **(environment or {})},
        )
        atexit.register(self.end)
        self.address = first_line(self.process.stdout).strip()
        if not self.address:
            raise AssertionError(f"the server did not start: {self.process.stderr.read()}")
        parts = urlsplit(self.address)
        self.host, self.port, self.token = parts.hostname, parts.port, parts.path.strip("/")

    def __enter__(self):
        return self

    def __exit__(self, *_):
        self.end()

    def end(self, number=signal.SIGINT):
        """Ends it by a signal, and gives its status."""
        atexit.unregister(self.end)
        if self.process.poll() is None:
            self.process.send_signal(number)
        try:
            status = self.process.wait(LIMIT_SECONDS)
        except subprocess.TimeoutExpired:
            self.process.kill()
            self.process.wait()
            raise
        self.process.stdout.close()
        if not self.process.stderr.closed:
            self.errors = self.process.stderr.read()
            self.process.stderr.close()
        return status

    def request(self, method, path, body=None, headers=None, token=None):
        """The status and the text of one request. `path` is behind the token."""
        connection = http.client.HTTPConnection(self.host, self.port, timeout=LIMIT_SECONDS)
        try:
            token = self.token if token is None else token
            connection.request(method, f"/{token}/{path}" if token else f"/{path}", body, headers or {})
            response = connection.getresponse()
            return response.status, response.read().decode().rstrip("\n")
        finally:
            connection.close()

    def post(self, path, body=b""):
        return self.request("POST", path, body)

    def session(self):
        status, name = self.post("session")
        assert status == 200, name
        return name

    def ask(self, name, line):
        """The answer to a line, which the server sends on."""
        status, answer = self.post(f"session/{name}/htp", line.encode())
        assert status == 200, (status, answer)
        return answer

    def engines(self):
        return children(self.process.pid)

    def held(self):
        """How many files and threads the server has open."""
        folder = Path(f"/proc/{self.process.pid}")
        return len(os.listdir(folder / "fd")), len(os.listdir(folder / "task"))
