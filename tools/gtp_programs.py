"""Programs that speak GTP, as tools/beside starts them: what the machine has of GNU Go, Leela Zero and Pentobi, and hexd."""

import os
import resource
import shutil
import signal
import subprocess
import tempfile
import threading
from pathlib import Path
from typing import NamedTuple

from programs import HEXD, size_of

# What a program may take of memory in address space, so that a record that hurts hurts nobody else.
MOST_MEMORY = 6 << 30
# What has not come by then is reported as missing: no answer that comes here takes nearly as long.
SECONDS = 10
# Where Debian has games, which are not on the path of root.
PATH = os.environ["PATH"] + ":/usr/games"


class Program(NamedTuple):
    """A program, the words that start its session, and of its game: the property of a record that names it, and a move."""

    title: str
    words: list | None  # None if the machine hasn't it
    game: str = "GM[1]"
    move: str = "cc"


def zero_network(folder):
    """Leela Zero needs a network, of which Debian has none: this one has the fewest layers, and all weights are zero."""
    planes, points, hidden = 18, 361, 256
    # Each convolution has weights, biases, means and variances; after that of the policy there is one layer, after that of
    # the value two.
    lengths = [planes * 9, 1, 1, 1]
    lengths += [2, 2, 2, 2, 2 * points * (points + 1), points + 1]
    lengths += [1, 1, 1, 1, points * hidden, hidden, hidden, 1]
    variances = (3, 7, 13)
    rows = [" ".join(["1" if row in variances else "0"] * length) for row, length in enumerate(lengths)]
    path = Path(folder, "zero-network.txt")
    path.write_text("\n".join(["1", *rows, ""]))
    return str(path)


def programs(folder):
    """hexd, and the others with what they need in this folder."""

    def words(name, *rest):
        found = shutil.which(name, path=PATH)
        return [found, *rest] if found else None

    leela = ["--gtp", "--cpu-only", "--noponder", "--threads", "4", "--playouts", "1000", "--weights", zero_network(folder)]
    return [
        Program("hexd", [HEXD, "htp", "--workers", "4", "--playouts", "1000"], "GM[11]", "c3"),
        Program("GNU Go", words("gnugo", "--mode", "gtp")),
        Program("Leela Zero", words("leelaz", *leela)),
        Program("Pentobi", words("pentobi-gtp", "--game", "duo"), "GM[Blokus Duo]", "c3"),
    ]


def limit():
    resource.setrlimit(resource.RLIMIT_AS, (MOST_MEMORY, MOST_MEMORY))
    resource.setrlimit(resource.RLIMIT_CORE, (0, 0))


def start(program, folder, **streams):
    return subprocess.Popen(
        program.words, cwd=folder, stdin=subprocess.PIPE, stdout=subprocess.PIPE, preexec_fn=limit, **streams
    )


def converse(program, given, folder, seconds=SECONDS):
    """What a session writes on an input, and how it ends: a status, or None if it had to be ended."""
    process = start(program, folder, stderr=subprocess.DEVNULL)
    try:
        text, _ = process.communicate(given, timeout=seconds)
        return text, process.returncode
    except subprocess.TimeoutExpired:
        process.kill()
        text, _ = process.communicate()
        return text, None


def ending(status):
    """How a session has ended, in words."""
    if status is None:
        return f"no end within {SECONDS} s"
    return f"ends by {signal.Signals(-status).name}" if status < 0 else f"ends with status {status}"


class Counted:
    """A session whose answers are counted as they come."""

    def __init__(self, program, folder):
        self.process = start(program, folder, stderr=subprocess.DEVNULL)
        self.answers, self.more = 0, threading.Condition()
        self.reader = threading.Thread(target=self.count)
        self.reader.start()

    def count(self):
        last = b""
        while piece := self.process.stdout.read1(1 << 20):
            # An answer ends with two line feeds, and has no two elsewhere.
            text = last + piece
            ended = text.count(b"\n\n")
            last = b"\n" if text.endswith(b"\n") and not text.endswith(b"\n\n") else b""
            with self.more:
                self.answers += ended
                self.more.notify()

    def send(self, text, answers):
        """Sends lines, and waits until so many answers have come in all; whether they have."""
        try:
            self.process.stdin.write(text)
            self.process.stdin.flush()
        except BrokenPipeError:
            return False
        with self.more:
            return self.more.wait_for(lambda: self.answers >= answers, timeout=60)

    def size(self):
        return size_of(self.process)

    def close(self):
        """Ends the session; the processor's time that it took, in seconds."""
        self.process.stdin.close()
        self.reader.join()
        _, _, used = os.wait4(self.process.pid, 0)
        self.process.returncode = 0
        return used.ru_utime + used.ru_stime
