"""48 probes of the habits of programs that speak GTP: what is sent, and what the standard asks for.

The standard is the Go Text Protocol, version 2, draft 2, which knows no limit for the length of a line. Answers are written
here as they come, without their two line feeds and with a semicolon between them, and with NAME for the program's own
answer to `name`. `wanted` has what the draft asks for: some answers, of which any will do, or none, if the draft
leaves it open; hexd's answer is the first of these, or `hexd`. After each probe but the last ones of an input the program is
sent one more command, and has to answer it.
"""

from collections.abc import Callable
from typing import NamedTuple

SILENT = ""
FAILURE = "? .."  # A failure with whatever message.
ANY = "= or ? .."  # One answer, whatever it says.
# What hexd answers to several.
UNKNOWN, TOO_LONG = "? unknown command", "? line too long"


class Probe(NamedTuple):
    """What is sent, in words and in bytes; what the draft asks for; whether the input ends after it; what hexd answers."""

    about: str
    sent: bytes
    wanted: tuple = ()
    is_last: bool = False
    hexd: str = ""


class Record(NamedTuple):
    """A record that `loadsgf` is given: its text by the root's property that names the game and a move of it, or no text."""

    about: str
    text: Callable | None
    name: str = "record.sgf"
    wanted: tuple = (ANY,)
    hexd: str = "? cannot load file"


IDS = [
    Probe("no id", b"name\n", ("= NAME",)),
    Probe("id 1", b"1 name\n", ("=1 NAME",)),
    Probe("id 0", b"0 name\n", ("=0 NAME",)),
    Probe("id 2147483647, the greatest", b"2147483647 name\n", ("=2147483647 NAME",)),
    Probe("id 2147483648", b"2147483648 name\n", hexd=UNKNOWN),
    Probe("id of 20 nines", b"9" * 20 + b" name\n", hexd=UNKNOWN),
    Probe("id 007", b"007 name\n", ("=7 NAME", "=007 NAME")),
    Probe("id -1", b"-1 name\n", hexd=UNKNOWN),
    Probe("id 1.5", b"1.5 name\n", hexd=UNKNOWN),
    Probe("an id alone", b"12\n", hexd="?12 syntax error"),
    Probe("an id that fails", b"5 no_such\n", ("?5 unknown command",)),
]
CONTROL = [
    Probe("carriage return and line feed", b"name\r\n", ("= NAME",)),
    Probe("a carriage return within the name", b"na\rme\n", ("= NAME",)),
    Probe("byte 0 within the name", b"na\0me\n", ("= NAME",)),
    Probe("byte 1 within the name", b"na\1me\n", ("= NAME",)),
    Probe("byte 27 before the name", b"\x1bname\n", ("= NAME",)),
    Probe("byte 127 within the name", b"na\x7fme\n", ("= NAME",)),
    Probe("vertical tab and form feed after the name", b"name\v\f\n", ("= NAME",)),
    Probe("a tab before the name", b"\tname\n", ("= NAME",)),
    Probe("a tab between id and name", b"3\tname\n", ("=3 NAME",)),
    Probe("a line of control bytes", b"\1\2\3\n", (SILENT,)),
    Probe("byte 228, which is no ASCII", b"n\xe4me\n", (FAILURE,), hexd=UNKNOWN),
]
SPACES = [
    Probe("spaces around", b"  name  \n", ("= NAME",)),
    Probe("spaces after the id", b"4    name\n", ("=4 NAME",)),
    Probe("a comment after the name", b"name # what is it\n", ("= NAME",)),
    Probe("a comment without a space", b"name#\n", ("= NAME",)),
    Probe("a comment alone", b"# name\n", (SILENT,)),
    Probe("empty lines", b"\n\n\r\n   \n\t\n", (SILENT,)),
    Probe("a last line without line feed", b"name", (), True, "= NAME"),
]
LONG = [
    Probe("1,000 spaces after the name", b"name" + b" " * 1_000 + b"\n", ("= NAME",)),
    Probe("5,000 spaces after the name", b"name" + b" " * 5_000 + b"\n", ("= NAME",), hexd=TOO_LONG),
    Probe("a name of 70,000 letters", b"x" * 70_000 + b"\n", (FAILURE,), hexd=TOO_LONG),
    Probe("a comment of 1,000,000 letters", b"#" + b"x" * 1_000_000 + b"\n", (SILENT,), hexd=TOO_LONG),
    Probe("2,000,000 letters", b"x" * 2_000_000 + b"\n", (FAILURE,), hexd=TOO_LONG),
]
COMMANDS = [
    Probe("an unknown command", b"no_such\n", ("? unknown command",)),
    Probe("a command in capitals", b"NAME\n", hexd=UNKNOWN),
    Probe("a colour and a vertex in capitals", b"play BLACK C3\n", ("= ",)),
    Probe("play without a vertex", b"play b\n", ("? syntax error",)),
    Probe("play of a third colour", b"play red c3\n", ("? syntax error",)),
    Probe("two stones on one point", b"play b c3\nplay w c3\n", ("= ; ? illegal move",)),
    Probe("undo without a move", b"undo\n", ("? cannot undo",)),
    Probe("boardsize 1000000", b"boardsize 1000000\n", ("? unacceptable size",)),
    Probe("known_command of what is none", b"known_command no_such\n", ("= false",)),
    Probe("commands after quit", b"quit\nname\n", ("= ",), True),
]
RECORDS = [
    Record("a record that is missing", None, "none.sgf", ("? cannot load file",)),
    Record("a pipe that nobody writes to", None, "pipe", hexd="? read fault"),
    Record("100,000 variations in one another", lambda game, move: f"(;{game}" + "(;" * 100_000),
    Record("a board of 99999999999", lambda game, move: f"(;{game}SZ[99999999999];B[{move}])"),
]


def all_names():
    """The names of all probes, in their order."""
    return [probe.about for probe in (*IDS, *CONTROL, *SPACES, *LONG, *COMMANDS, *RECORDS)]
