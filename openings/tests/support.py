"""What the tests of openings/ share: faults that are collected, and runs of what stands here."""

import subprocess
import sys
from pathlib import Path

FOLDER = Path(__file__).resolve().parent.parent
faults = []


def expect(holds, what):
    if not holds:
        faults.append(what)


def skip(what, package):
    """tools/check says at its end which packages are wanted."""
    print(f"openings/test.py: skipped: {what}, for there is no {package}", file=sys.stderr)


def run(*words, **how):
    """The status of a command, its lines, and those on standard error."""
    done = subprocess.run(words, capture_output=True, text=True, **how)
    return done.returncode, done.stdout.splitlines(), done.stderr.splitlines()


def openings_check(*words, folder=FOLDER):
    """The status of openings/check, and its lines."""
    return run(folder / "check", *words)[:2]
