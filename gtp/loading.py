"""Records of other programs, which hexd is given in its own form (board/records.py)."""

import os
import stat
from pathlib import Path

from engine import Engine, Refused

import records

# hexd reads no longer record.
MOST_BYTES = 1_048_576


def load_other(session, file):
    """Has hexd load a record in its own form, from an open file of another one. Refused with which move it can't play."""
    kind = os.fstat(file)
    if kind.st_size > MOST_BYTES or not stat.S_ISREG(kind.st_mode):
        raise Refused(b"cannot load file")
    try:
        record = records.read(Path(f"/proc/self/fd/{file}").read_bytes())
    except records.Refused as why:
        raise Refused(b"cannot load file: " + str(why).encode()) from None
    except OSError:
        raise Refused(b"read fault") from None
    if not record.is_whole:
        raise Refused(b"cannot load file: it breaks off in the record")
    try:
        session.hexd.load_text(record.main.encode())
    except Refused:
        raise Refused(b"cannot load file: " + why_refused(record).encode()) from None


def why_refused(record):
    """Which move of a record hexd refuses, and why. Another hexd is asked, so that the game stays."""
    other = Engine([])

    def ask(line):
        try:
            return other.ask(line.encode()).decode()
        except Refused:
            return None

    try:
        return records.why_refused(ask, record)
    finally:
        other.close()
