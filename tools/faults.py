"""What the tests of manual pages, completions and installs share: faults that are collected, and commands that are run."""

import subprocess
import sys
from pathlib import Path

ROOT = Path(__file__).resolve().parent.parent
SCRIPT = "tools/" + Path(sys.argv[0]).name
# Far longer than any command here takes: only what waits for good reaches it.
SECONDS = 600
FAULTS = []


def agree(what, got, want):
    if got != want:
        FAULTS.append(f"{SCRIPT}: {what}: {got!r} in place of {want!r}")


def skip(what, tool):
    print(f"{SCRIPT}: skipped: {what}, for there is no {tool}", file=sys.stderr)


def text(path):
    return (ROOT / path).read_text(encoding="utf-8")


def run(*words, given="", cwd=ROOT, env=None):
    """The status of a command, if it could run and came to an end, and what it writes."""
    try:
        done = subprocess.run(words, input=given, capture_output=True, text=True, cwd=cwd, env=env, timeout=SECONDS)
    except (OSError, subprocess.TimeoutExpired) as error:
        return None, str(error)
    return done.returncode, done.stdout + done.stderr


def place_of(name):
    """Where the program of this name lies."""
    status, said = run(ROOT / "bin/start", "--where", name)
    if status != 0:
        sys.exit(f"{SCRIPT}: {name} was not built: {said}")
    return Path(said.splitlines()[-1])


def status():
    """Prints the faults; 1 if there is one."""
    print(*FAULTS, sep="\n", end="\n" if FAULTS else "")
    return 1 if FAULTS else 0
