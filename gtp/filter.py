#!/usr/bin/env python3
"""hexd for board programs and tournament scripts that speak more than HTP: GTP's and HexGui's habits (bin/hexd-gtp).

    bin/hexd-gtp [WORD..]

It runs `bin/hexd htp WORD..` and hands it each line as it came, but for the commands of gtp/commands.py: these it
answers itself, by what hexd answers. It ends when hexd does, with hexd's status, and else with 3 if its input can't be
read and 4 if its output can't be written.
"""

import os
import select
import signal
import sys
from pathlib import Path

ROOT = Path(__file__).resolve().parent.parent
sys.path[1:1] = [str(ROOT / "tools"), str(ROOT / "board")]
from analysis import Analysis
from commands import OWN, Session
from engine import NotStarted, Refused, Request, end_all
from forms import is_number
from log import Log
from programs import HexdEnded
from troubles import say
from words import Words

# hexd answers a line of more bytes `line too long`, whatever it holds.
LONGEST_LINE = 4096
LARGEST_ID = 2**31 - 1
# The bytes that hexd drops from a line: all control bytes but the tab.
CONTROL = bytes(byte for byte in (*range(32), 127) if byte != 9)
READ_FAULT, WRITE_FAULT = 3, 4


class ReadFault(Exception):
    """The input can't be read."""


class WriteFault(Exception):
    """The output can't be written."""


def read_request(line):
    """What a line asks, as hexd reads it; none if hexd answers nothing."""
    text = line.translate(None, CONTROL).partition(b"#")[0].replace(b"\t", b" ").strip()
    name, _, rest = text.partition(b" ")
    number = b""
    if len(name) <= 10 and is_number(name, LARGEST_ID):
        number = b"%d" % int(name)
        name, _, rest = rest.strip().partition(b" ")
    return Request(number, name, rest.strip()) if text else None


class Filter:
    """A driver's input, and the session that answers it."""

    def __init__(self, words):
        words = Words.of(words)
        self.log = Log(words.log)
        self.session = Session(words)
        # What was read and is not yet handed over.
        self.kept = b""
        # Behind `quit` nothing is answered.
        self.has_quit = False

    def give(self, text):
        """Writes all of a text."""
        try:
            if text:
                self.log.note(b"<", text)
            while text:
                text = text[os.write(1, text) :]
        except OSError:
            raise WriteFault from None

    def read(self):
        """The next bytes of the input; none at its end. Until they come it may ponder."""
        self.session.begin_pondering()
        try:
            while 0 not in self.ready():
                pass
            self.session.pause_pondering()
            return os.read(0, LONGEST_LINE)
        except OSError:
            raise ReadFault from None

    def ready(self):
        """Waits until there is input, or something of what is pondered, which hears it; says which can be read."""
        hexd, ponder = self.session.hexd.process.stdout, self.session.ponder
        stream = ponder and ponder.stream
        ready, _, _ = select.select([0, hexd, *filter(None, [stream])], [], [])
        if stream in ready:
            ponder.hear()
        elif 0 not in ready:
            # Nothing is left to be answered, so what comes from hexd is its end.
            raise HexdEnded
        return ready

    def piece(self):
        """The next line with its line feed, or the next bytes of one that is too long; at the end what is left."""
        while b"\n" not in self.kept and len(self.kept) <= LONGEST_LINE:
            more = self.read()
            if not more:
                break
            self.kept += more
        end = self.kept.find(b"\n") + 1 or len(self.kept)
        piece, self.kept = self.kept[:end], self.kept[end:]
        if piece:
            self.log.note(b">", piece)
        return piece

    def hand_over(self, piece):
        """Hands hexd the line that begins with this piece, as it is."""
        while not piece.endswith(b"\n"):
            self.session.hexd.send(piece)
            piece = self.piece() or b"\n"
        self.session.hexd.send(piece)

    def answer(self, piece):
        """What is written for the line that begins with this piece."""
        line = piece.removesuffix(b"\n")
        is_long = len(line) > LONGEST_LINE
        request = None if is_long else read_request(line)
        if request and request.name in OWN:
            try:
                text = OWN[request.name](self.session, request)
            except Refused as refused:
                return b"?%s %s\n\n" % (request.number, refused.args[0])
            if isinstance(text, Analysis):
                return self.stream(request, text)
            if text is not None:
                return b"=%s %s\n\n" % (request.number, text)
        self.hand_over(piece)
        if not request and not is_long:
            return b""
        answer = self.session.hexd.answer()
        if request and answer[:1] == b"=":
            self.has_quit = request.name == b"quit"
            self.session.changed(request.name)
        return answer

    def stream(self, request, analysis):
        """Writes the lines of an analysis as they come, until there is more input, or its end; gives what ends the answer."""
        self.give(b"=%s \n" % request.number)
        with analysis:
            while not self.kept and 0 not in self.awaited(analysis):
                self.give(analysis.due())
        return b"\n"

    @staticmethod
    def awaited(analysis):
        """Waits until there is input, or something of an analysis, which hears it, or a line is due; says which can be read."""
        streams = [0, *filter(None, [analysis.stream])]
        try:
            ready, _, _ = select.select(streams, [], [], analysis.waiting())
        except OSError:
            raise ReadFault from None
        if analysis.stream in ready:
            analysis.hear()
        return ready

    def run(self):
        """Answers line after line, and gives the status in the end."""
        try:
            while not self.has_quit and (piece := self.piece()):
                self.give(self.answer(piece))
        except HexdEnded:
            pass
        except ReadFault:
            say("hexd-gtp: read fault")
            self.session.hexd.close()
            return READ_FAULT
        except WriteFault:
            self.session.hexd.close()
            return WRITE_FAULT
        finally:
            self.session.stop_pondering()
        return self.session.hexd.close()


def hold_closed_streams():
    """Opens a standard stream that is closed, so that no pipe gets its number; to use it is a fault still."""
    for stream, mode in enumerate([os.O_WRONLY, os.O_RDONLY, os.O_WRONLY]):
        try:
            os.fstat(stream)
        except OSError:
            os.open(os.devnull, mode)


if __name__ == "__main__":
    for number in (signal.SIGINT, signal.SIGTERM, signal.SIGHUP):
        if signal.getsignal(number) != signal.SIG_IGN:
            signal.signal(number, end_all)
    hold_closed_streams()
    try:
        sys.exit(Filter(sys.argv[1:]).run())
    except NotStarted as fault:
        say(f"hexd-gtp: {fault}")
        sys.exit(fault.status)
    except OSError as fault:
        say(f"hexd-gtp: {fault.filename or 'the log'}: {fault.strerror}")
        sys.exit(WRITE_FAULT)
