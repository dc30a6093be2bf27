#!/usr/bin/env python3
"""Runs hexd and hexmatch with one of the standard streams closed: themselves, by their launchers, and as they are installed.

    tools/closed_streams.py

Whatever a run opens, no byte of an answer or of a line goes there, and what is closed is a fault: of input status 3, of output
status 4. In each mode, with a file of --trace and without one. It says nothing if all is as it has to be, else what differs,
and ends with 1. HEXD and HEXMATCH name the programs; if they aren't set those are bin/hexd and bin/hexmatch.
"""

import os
import subprocess
import sys
import tempfile
from pathlib import Path

from hostile_inputs import LIMIT
from programs import HEXD, ROOT

HEXMATCH = os.environ.get("HEXMATCH", str(ROOT / "bin" / "hexmatch"))
CERTIFICATE = (ROOT / "examples/certificates/v1.cert").read_bytes()
# The words of a mode, what it reads, and whether it writes a trace. A mode without input reads none.
MODES = (
    (["htp", "--size", "2", "--playouts", "2", "--hsearch", "off"], b"genmove b\nname\n", True),
    (["sim", "--size", "2", "--playouts", "3"], None, True),
    (["bench", "--size", "2", "--playouts", "3"], None, True),
    (["check"], CERTIFICATE, False),
    (["migrate"], CERTIFICATE, False),
    (["audit"], b"", False),
    (["solve"], b"(;GM[11]SZ[1];B[a1])", False),
)
MATCH = ["--size", "1", "--games", "2"]
READ_FAULT, WRITE_FAULT = (3, b"", b"hexd: read fault\n"), (4, b"", b"")
FAULTS = []


def ran(command, given, closed=None):
    """What a run writes, with its status, if this stream of it is closed."""
    with tempfile.TemporaryFile() as source:
        source.write(given or b"")
        source.seek(0)
        close = (lambda: os.close(closed)) if closed is not None else None
        done = subprocess.run(command, stdin=source, capture_output=True, preexec_fn=close)
    return done.returncode, done.stdout, done.stderr


def wanted(closed, is_read, whole):
    """How a run ends with this stream closed, by how it ends with all of them."""
    if closed == 0 and is_read:
        return READ_FAULT
    return WRITE_FAULT if closed == 1 else whole


def agree(what, got, want):
    if got != want:
        FAULTS.append(f"tools/closed_streams.py: {what}: {got} in place of {want}")


def trace_of(file):
    """What a file of --trace holds, which is taken away; None if there is none."""
    content = file.read_bytes() if file.exists() else None
    file.unlink(missing_ok=True)
    return content


def check_mode(program, words, given, is_traced, folder):
    """A mode of hexd, with each stream closed in turn, with a file of --trace and without one."""
    file = Path(folder, "trace")
    for more in ([], ["--trace", str(file)]):
        whole, trace = ran([program, *words, *more], given), trace_of(file)
        agree(f"{program} {words[0]} {more}", (whole[0], whole[2], trace is not None), (0, b"", is_traced and more != []))
        for closed in range(3):
            got = ran([program, *words, *more], given, closed), trace_of(file)
            want = wanted(closed, given is not None, whole)
            agree(f"{program} {words[0]} {more}, {closed} closed", got, (want, None if want == READ_FAULT else trace))


def check_line(program, folder):
    """A line on standard error goes nowhere if that is closed, though a trace was written before."""
    file = Path(folder, "trace")
    command, given = [program, *MODES[0][0], "--trace", str(file)], b"genmove b\n" + b"# comment\n" * (LIMIT // 10)
    whole, trace = ran(command, given), trace_of(file)
    agree(program, (whole[0], whole[2]), (6, b"hexd: input too long\n"))
    got = ran(command, given, 2), trace_of(file)
    agree(f"{program}, too long an input, 2 closed", got, ((6, whole[1], b""), trace))


def check_match(program):
    whole = ran([program, *MATCH], None)
    agree(program, (whole[0], whole[2]), (0, b""))
    for closed in range(3):
        agree(f"{program}, {closed} closed", ran([program, *MATCH], None, closed), wanted(closed, False, whole))


def installed(name, program, folder):
    """The launcher of an installed program, over a folder of its own."""
    share, place = Path(folder, "share"), Path(folder, name)
    (share / "bin").mkdir(parents=True, exist_ok=True)
    (share / "bin" / name).symlink_to(program)
    for other in ("tools", "man"):
        if not (share / other).exists():
            (share / other).symlink_to(ROOT / other)
    lines = (ROOT / "bin/installed").read_text().splitlines(keepends=True)
    place.write_text("".join(f"share={share}\n" if line.startswith("share=") else line for line in lines))
    place.chmod(0o755)
    return str(place)


def main():
    with tempfile.TemporaryDirectory() as folder:
        for program in (HEXD, str(ROOT / "bin/hexd"), installed("hexd", HEXD, folder)):
            for words, given, is_traced in MODES:
                check_mode(program, words, given, is_traced, folder)
            check_line(program, folder)
        for program in (HEXMATCH, str(ROOT / "bin/hexmatch"), installed("hexmatch", HEXMATCH, folder)):
            check_match(program)
    print(*FAULTS, sep="\n", end="\n" if FAULTS else "")
    return 1 if FAULTS else 0


if __name__ == "__main__":
    sys.exit(main())
