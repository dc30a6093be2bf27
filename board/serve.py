#!/usr/bin/env python3
"""Serves the board for a browser: the files of page/, and sessions that are processes `hexd htp`.

    serve.py [--playouts N] [--weight N] [--workers N] [--open] [--port N] [--listen ADDRESS] [-- OPTIONS OF HEXD]

It prints one address, whose random token each request needs as the first part of its path. README.md beside this file has
the requests, and what each refusal is for. It listens on 127.0.0.1 alone where nothing else is said, and never runs a shell.
"""

import argparse
import signal
import socket
import subprocess
import sys
import tempfile
import threading
import webbrowser
from pathlib import Path

import hexd
import settings
from handler import HERE, Server
from openings import Openings
from sessions import Sessions
from troubles import say

PORT = 8642
# Without --port so many ports are tried, from PORT on.
PORTS_TRIED = 100
SWEEP_SECONDS = 60
WARNING = """\
hexd-board: warning: other machines can reach this server. Who knows the address above, with its token, can play and
hexd-board: search on this machine; what goes over the network is not encrypted."""


def bound(address, port, *parts):
    """A server on this port; without one on the first free port from PORT on."""
    if port is not None:
        return Server(address, port, *parts)
    for tried in range(PORT, PORT + PORTS_TRIED):
        try:
            return Server(address, tried, *parts)
        except OSError as fault:
            last = fault
    raise last


def wanted(words):
    """The words of the command line: our own, and behind `--` those for hexd."""
    place = words.index("--") if "--" in words else len(words)
    parser = settings.Parser(prog="hexd-board", usage="hexd-board [OPTIONS] [-- OPTIONS OF HEXD]")
    settings.add_options(parser, {"workers": settings.BEST["workers"]})
    parser.add_argument("--open", action="store_true", help="open the page in a browser")
    port = f"the port (0: any); {PORT} or the next free one by default"
    parser.add_argument("--port", type=settings.number(0, 65_535), help=port)
    parser.add_argument("--listen", metavar="ADDRESS", default=HERE, help=f"whose port; {HERE}, this machine, by default")
    parser.add_argument("--program", type=hexd.program_of, default=hexd.PROGRAM, help="the program in place of the built one")
    options = parser.parse_args(words[:place])
    given, options.others = split(parser, words[place + 1 :], settings.given_of(options))
    options.given = settings.Given.of(given)
    return options


def split(parser, words, given):
    """The settings with those among hexd's own words, and the others of these words."""
    inner = argparse.ArgumentParser(add_help=False, allow_abbrev=False, prog=parser.prog)
    inner.error = parser.error
    for name, value in given.items():
        inner.add_argument(f"--{name}", type=settings.number(*settings.RANGES[name]), default=value)
    found, others = inner.parse_known_args(words)
    return settings.given_of(found), others


def is_fit(program, words):
    """Whether hexd takes these words; where not, a line says so behind its own."""
    try:
        fit = subprocess.run([program, "htp", *words], stdin=subprocess.DEVNULL).returncode == 0
    except OSError as fault:
        say(f"hexd-board: hexd can't be started: {program}: {fault.strerror}")
        return False
    if not fit:
        say(f"hexd-board: hexd refuses these words: {' '.join(words)}")
    return fit


def end_by_signal(number, _):
    sys.exit(0 if number == signal.SIGINT else 128 + number)


def sweep(sessions, ended):
    while not ended.wait(SWEEP_SECONDS):
        sessions.end_idle()


def tell(server, options):
    """Prints the address, and what there is to say of it; opens it where that is wanted."""
    print(server.address(), flush=True)
    say(f"hexd {settings.told_of_board(options.given)}. Ctrl-C ends the server.")
    if not server.is_local():
        say(WARNING)
    if options.open:
        # Beside the server, for some browsers hold up who starts them.
        threading.Thread(target=webbrowser.open, args=(server.address(),), daemon=True).start()
    else:
        say("Open the address in a browser.")


def serve(options, server, sessions):
    """Serves until a signal comes."""
    ended = threading.Event()
    threading.Thread(target=sweep, args=(sessions, ended), daemon=True).start()
    try:
        tell(server, options)
        server.serve_forever()
    finally:
        for number in (signal.SIGINT, signal.SIGTERM, signal.SIGHUP):
            signal.signal(number, signal.SIG_IGN)
        ended.set()
        server.server_close()
        sessions.close()


def main():
    options = wanted(sys.argv[1:])
    if not is_fit(options.program, Sessions(options.program, options.given, options.others, "").words(None)):
        return 2
    for number in (signal.SIGINT, signal.SIGTERM, signal.SIGHUP):
        if number != signal.SIGHUP or signal.getsignal(number) != signal.SIG_IGN:
            signal.signal(number, end_by_signal)
    program = options.program.resolve()
    with tempfile.TemporaryDirectory(prefix="hexd-board-") as folder:
        sessions = Sessions(program, options.given, options.others, folder)
        try:
            server = bound(options.listen, options.port, sessions, Openings(program))
        except (OSError, socket.gaierror) as fault:
            say(f"hexd-board: it can't listen: {fault}")
            return 1
        try:
            serve(options, server, sessions)
        except OSError as fault:
            say(f"hexd-board: {fault.strerror}")
            return 1


if __name__ == "__main__":
    sys.exit(main())
