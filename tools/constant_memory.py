#!/usr/bin/env python3
"""Sends `bin/hexd htp` 64 MiB of commands, the most that it takes, and compares its size before and after.

    tools/constant_memory.py

It prints the size of the process (VmRSS) after the first 64 KiB and after the last, the answers and
the seconds. Its status is 1 if the process grew by more than 256 KiB, an answer is missing, or
the session did not end well.
"""

import subprocess
import sys
import threading
import time

from programs import HEXD, size_of

LIMIT = 67_108_864
BLOCK = 65_536
MOST_GROWTH = 256

# What a stranger may send, first what is answered: moves, refused ones, boards, records, a file that
# is missing, bytes that are no name, lines that are too long; then control bytes and a comment.
ANSWERED = [
    b"boardsize 11", b"play b f6", b"play w f6", b"play w swap-pieces", b"2147483647 showboard", b"undo", b"undo",
    b"undo", b"printsgf", b"loadsgf /no/such/file", b"known_command \xff\xfe", b"winner # the last",
]
LONG = [b"list_commands " + b"a " * 2000, b"y" * 5000]
SILENT = [b"\x01\x02\x7f" * 300, b"# " + b"x" * 4000]
ROUNDS = 40


def block():
    """64 KiB of lines, filled up by comments; and how many of them are answered."""
    lines = ANSWERED * ROUNDS + LONG + SILENT
    text = b"\n".join(lines) + b"\n"
    while len(text) + 4000 < BLOCK:
        text += b"#" * 3999 + b"\n"
    return text + b"#" * (BLOCK - len(text) - 1) + b"\n", len(lines) - len(SILENT)


class Session:
    """A session whose answers are counted as they come."""

    def __init__(self):
        self.process = subprocess.Popen([HEXD, "htp"], stdin=subprocess.PIPE, stdout=subprocess.PIPE)
        self.answers, self.more = 0, threading.Condition()
        self.reader = threading.Thread(target=self.count)
        self.reader.start()

    def count(self):
        last = b""
        while piece := self.process.stdout.read1(1 << 20):
            # An answer ends with two line feeds, and has no two elsewhere.
            ended = (last + piece).count(b"\n\n")
            last = b"\n" if piece.endswith(b"\n") and not (last + piece).endswith(b"\n\n") else b""
            with self.more:
                self.answers += ended
                self.more.notify()

    def send(self, text):
        self.process.stdin.write(text)
        self.process.stdin.flush()

    def wait_for(self, answers):
        with self.more:
            self.more.wait_for(lambda: self.answers >= answers, timeout=60)


def main():
    text, answers = block()
    session, began = Session(), time.time()
    session.send(text)
    session.wait_for(answers)
    first = size_of(session.process)
    for _ in range(LIMIT // BLOCK - 1):
        session.send(text)
    session.wait_for(answers * (LIMIT // BLOCK))
    last = size_of(session.process)
    session.process.stdin.close()
    session.reader.join()
    status = session.process.wait()
    print(
        "%d bytes of commands, %d answers, %.1f seconds: %d KiB after the first %d bytes, %d KiB at the end"
        % (LIMIT, session.answers, time.time() - began, first, BLOCK, last)
    )
    is_well = status == 0 and session.answers == answers * (LIMIT // BLOCK) and last <= first + MOST_GROWTH
    return 0 if is_well else 1


if __name__ == "__main__":
    sys.exit(main())
