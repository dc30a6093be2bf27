#!/usr/bin/env python3
"""Lets the system take a part of what `bin/hexd` writes at once, and compares what arrives in the end.

    tools/short_writes.py

A write that waits for its reader comes back with what it has written so far when the process is stopped
and goes on. So a certificate of several MB is written to a pipe of 4,096 bytes (standard output), and a
trace to a terminal that nobody reads (the file of --trace). It says nothing if each byte arrives once,
in order, and its status is 1 if one does not, or no write came back short.
"""

import os
import pty
import select
import signal
import subprocess
import sys
import tempfile
import time
import tty
from fcntl import F_SETPIPE_SZ, fcntl
from pathlib import Path

from programs import HEXD

PIPE = 4_096
# The bytes of each write of a trace, but for the last one.
WRITE = 4_096
TRACED = [HEXD, "htp", "--size", "5", "--hsearch", "off", "--playouts", "2000", "--trace"]
SECONDS = 30


class Fault(Exception):
    """What went wrong."""


def until(is_so, what):
    """Waits until it is so."""
    end = time.monotonic() + SECONDS
    while not is_so():
        if time.monotonic() > end:
            raise Fault(what + " did not come")
        time.sleep(0.002)


def written(pid):
    """The bytes of all writes of the process that have returned."""
    text = Path("/proc/%d/io" % pid).read_text()
    return int(text.split("wchar:")[1].split()[0])


def state(pid):
    """One letter: R runs, S waits, T is stopped."""
    return Path("/proc/%d/stat" % pid).read_text().rpartition(")")[2].split()[0]


def is_waiting(pid):
    """Whether it waits, and has written nothing for a while."""
    before = written(pid)
    time.sleep(0.05)
    return state(pid) == "S" and written(pid) == before


def interrupt(pid):
    """Stops the process while it waits in a write, and lets it go on; and how many bytes its writes gave meanwhile."""
    until(lambda: is_waiting(pid), "a write that waits")
    before = written(pid)
    os.kill(pid, signal.SIGSTOP)
    until(lambda: state(pid) == "T", "the stop")
    os.kill(pid, signal.SIGCONT)
    until(lambda: is_waiting(pid), "the next write that waits")
    return written(pid) - before


def read_all(fd, length):
    """So many bytes, or all up to the end."""
    got = b""
    while len(got) < length:
        if not select.select([fd], [], [], SECONDS)[0]:
            raise Fault("byte %d did not come" % len(got))
        piece = os.read(fd, length - len(got))
        if not piece:
            break
        got += piece
    return got


def certificate():
    """One of 200,000 lines."""
    head = b"hexcert 2\nsize 2\nplayer black\nblack\nwhite\n"
    return head + b"adj a1 edge1\n" * 200_000 + b"full 0\n"


def check_pipe():
    """What `migrate` gives for a certificate of version 2 is its text, in one write."""
    text = certificate()
    reader, writer = os.pipe()
    fcntl(writer, F_SETPIPE_SZ, PIPE)
    with tempfile.TemporaryFile() as source:
        source.write(text)
        source.seek(0)
        with subprocess.Popen([HEXD, "migrate"], stdin=source, stdout=writer) as process:
            os.close(writer)
            try:
                until(lambda: select.select([reader], [], [], 0)[0], "the text")
                if interrupt(process.pid) != PIPE:
                    raise Fault("no write to a full pipe came back short")
                got = read_all(reader, len(text) + 1)
            except Fault:
                process.kill()
                raise
            if got != text or process.wait() != 0:
                raise Fault("a short write to standard output: %d bytes of %d arrived" % (len(got), len(text)))
    os.close(reader)


def say(process, line):
    """The answer to a line."""
    process.stdin.write(line + b"\n")
    process.stdin.flush()
    return process.stdout.readline() + process.stdout.readline()


def trace():
    """What a file of --trace holds after one move."""
    with tempfile.TemporaryDirectory() as folder:
        name = folder + "/trace"
        subprocess.run(TRACED + [name], input=b"genmove b\n", stdout=subprocess.DEVNULL, check=True)
        return Path(name).read_bytes()


def check_terminal():
    """The same trace arrives at a terminal, though at least one write of it came back short."""
    text = trace()
    reader, writer = pty.openpty()
    tty.setraw(writer)
    pipes = {"stdin": subprocess.PIPE, "stdout": subprocess.PIPE}
    with subprocess.Popen(TRACED + [os.ttyname(writer)], **pipes) as process:
        try:
            say(process, b"name")
            process.stdin.write(b"genmove b\n")
            process.stdin.flush()
            before, got = written(process.pid), b""
            # If the terminal was full at the end of a write, some room is made for a part of the next one.
            until(lambda: written(process.pid) > before, "the trace")
            until(lambda: is_waiting(process.pid), "a full terminal")
            while interrupt(process.pid) % WRITE == 0:
                got += read_all(reader, 512)
            if written(process.pid) - before > len(text) - WRITE:
                raise Fault("no write to a full terminal came back short")
            got += read_all(reader, len(text) - len(got))
            process.stdin.close()
        except Fault:
            process.kill()
            raise
        if got != text or process.wait() != 0 or select.select([reader], [], [], 0)[0]:
            raise Fault("a short write to the file of --trace: %d bytes of %d arrived" % (len(got), len(text)))
    os.close(writer)
    os.close(reader)


def main():
    try:
        check_pipe()
        check_terminal()
    except Fault as fault:
        print("tools/short_writes.py: %s" % fault)
        return 1
    return 0


if __name__ == "__main__":
    sys.exit(main())
