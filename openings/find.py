#!/usr/bin/env python3
"""Finds certificates of openings by `hexd solve`: openings/find.py [--out FOLDER] [--budget N] [--again] [--whole] NAME..

A NAME is that of an opening, as `6-a3`, or a size, which stands for its openings up to the half turn of the board, or
with --whole for all. Each certificate is written to FOLDER (this one, if it isn't said) as NAME.cert.xz, once `hexd
check` and tools/second_checker.py have accepted it; of an opening that has no file of its own, since its half turn has
one, it is only checked. An opening whose file is there is passed over, so the same command goes on where it was ended;
with --again it isn't. The budget is that of `hexd solve`, 10,000,000 if it isn't said.

For each opening it prints who wins, with the lines of the certificate, the processor time and the most memory of
`hexd solve`, and adds the same as a row to FOLDER/measured.tsv. It ends with 0 if each opening that was named has its
certificate, else with 1, and after Ctrl-C with 130. `openings/find.py --list SIZE` prints the openings of a size.

HEXD names the program; if it isn't set that is bin/hexd. Nothing here is proved: what it writes is, by its checker.
"""

import argparse
import os
import re
import signal
import subprocess
import sys
import tempfile
import time
from pathlib import Path

from openings import ENDING, FOLDER, KINDS, MEASURED, can_unpack, opening_named, openings_of, put_whole, vertex

sys.path += [str(FOLDER.parent / "tools"), str(FOLDER.parent / "board")]
import second_checker
from hexd import PROGRAM, EngineEnded, check
from limits import dying

BUDGET = 10_000_000
SIZES = range(1, 12)
INTERRUPTED = 130
ENDING_SIGNALS = {signal.SIGINT, signal.SIGTERM}
# Between two looks at the memory, in seconds; and after how many of them it is asked whether a search is still wanted.
TICK, TICKS = 0.05, 40


def most_memory(process, before):
    """The most memory that a process has had, in MB (VmHWM): what it was before, if the process has ended."""
    try:
        status = Path(f"/proc/{process.pid}/status").read_text()
    except OSError:
        return before
    found = re.search(r"VmHWM:\s+(\d+)", status)
    return int(found[1]) / 1024 if found else before


def ended(process, is_needless):
    """Waits for a process, or ends it if it is needless by then: its use of the system, and the most memory that was
    seen. (wait4 would count this one's.)"""
    megabytes, ticks = most_memory(process, 0), 0
    while (found := os.wait4(process.pid, os.WNOHANG))[0] == 0:
        time.sleep(TICK)
        megabytes, ticks = most_memory(process, megabytes), ticks + 1
        if ticks % TICKS == 0 and is_needless():
            os.kill(process.pid, signal.SIGKILL)
    _, status, usage = found
    process.returncode = os.waitstatus_to_exitcode(status)
    return usage, megabytes


def hear():
    """Has a new process hear the signals that wait in this one: a mask goes on to it."""
    for number in ENDING_SIGNALS:
        signal.signal(number, signal.SIG_DFL)
    signal.pthread_sigmask(signal.SIG_UNBLOCK, ENDING_SIGNALS)


def solved(opening, budget):
    """What `hexd solve` says of an opening, as `answered` has it."""
    return answered(f"(;GM[11]SZ[{opening.size}];B[{vertex(*opening)}])", budget)


def answered(record, budget, is_needless=lambda: False, words=()):
    """What `hexd solve`, with these words more, says of a record, and the processor seconds and the most memory, in MB,
    that it took. One that was ended says nothing."""
    with tempfile.TemporaryFile() as given, tempfile.TemporaryFile() as said:
        given.write(record.encode())
        given.seek(0)
        # Ctrl-C, and the signal TERM, wait while it starts: before that is over nobody could end it.
        signal.pthread_sigmask(signal.SIG_BLOCK, ENDING_SIGNALS)
        command = dying(PROGRAM, ["solve", "--budget", str(budget), *words])
        process = subprocess.Popen(command, stdin=given, stdout=said, preexec_fn=hear)
        try:
            signal.pthread_sigmask(signal.SIG_UNBLOCK, ENDING_SIGNALS)
            usage, megabytes = ended(process, is_needless)
        except BaseException:
            process.kill()
            raise
        said.seek(0)
        return said.read() if process.returncode >= 0 else b"", usage.ru_utime + usage.ru_stime, megabytes


def packed(text):
    """The bytes of a file with this text."""
    import lzma

    return lzma.compress(text, preset=9 | lzma.PRESET_EXTREME)


def find(opening, budget, folder):
    """Solves an opening and keeps its certificate: a sentence on it, and whether there is one."""
    said, seconds, megabytes = solved(opening, budget)
    head, _, text = said.partition(b"\n")
    cost = f"{seconds:.1f} s, {megabytes:.0f} MB"
    winner = head.decode().removeprefix("won ")
    if winner not in KINDS:
        return f"{head.decode() or 'no answer'}; {cost}", False
    answers = check(text), second_checker.answer(text)
    if answers != (f"yes {KINDS[winner]}", f"yes {KINDS[winner]}"):
        return f"{winner} wins, by a certificate of which the checkers say {answers}", False
    if opening.has_file():
        put_whole(folder / f"{opening}{ENDING}", packed(text))
    lines = text.count(b"\n")
    with open(folder / MEASURED.name, "a") as measured:
        measured.write(f"{opening}\t{winner}\t{lines}\t{seconds:.2f}\t{megabytes:.0f}\n")
    return f"{winner} wins, {lines:,} lines; {cost}", True


def words():
    parser = argparse.ArgumentParser(description=__doc__, formatter_class=argparse.RawDescriptionHelpFormatter)
    parser.add_argument("names", metavar="NAME", nargs="*")
    parser.add_argument("--out", type=Path, default=FOLDER, metavar="FOLDER")
    parser.add_argument("--budget", type=int, default=BUDGET, metavar="N")
    parser.add_argument("--again", action="store_true")
    parser.add_argument("--whole", action="store_true")
    parser.add_argument("--list", type=int, choices=SIZES, metavar="SIZE")
    return parser.parse_args()


def named(names, whole):
    """The openings of these names and sizes, each once; a ValueError says which one names nothing."""
    found = []
    for name in names:
        if re.fullmatch("[1-9]|1[01]", name):
            found += openings_of(int(name), whole)
        elif opening := opening_named(name):
            found.append(opening)
        else:
            raise ValueError(f"{name!r} is no opening, as 6-a3, and no size, 1 to {SIZES[-1]}")
    if not found:
        raise ValueError("no opening is named (--help has the words)")
    return list(dict.fromkeys(found))


def find_all(openings, options):
    """Finds those that are not there yet, and prints what is found: how many have no certificate."""
    missing = 0
    for opening in openings:
        if (options.out / f"{opening}{ENDING}").exists() and not options.again:
            continue
        said, is_found = find(opening, options.budget, options.out)
        missing += not is_found
        print(f"{opening}: {said}", flush=True)
    return missing


def main():
    options = words()
    if options.list is not None:
        print(*openings_of(options.list), sep="\n")
        return 0
    try:
        openings = named(options.names, options.whole)
    except ValueError as why:
        print(f"openings/find.py: {why}", file=sys.stderr)
        return 1
    if not can_unpack():
        print("openings/find.py: this python3 has no lzma", file=sys.stderr)
        return 1
    try:
        options.out.mkdir(parents=True, exist_ok=True)
        open(options.out / MEASURED.name, "a").close()  # Before the search, which may take long.
    except OSError as fault:
        print(f"openings/find.py: {options.out} can't be written: {fault.strerror}", file=sys.stderr)
        return 1
    try:
        check(b"")  # Builds hexd if it has to be built.
        return 1 if find_all(openings, options) else 0
    except (OSError, EngineEnded) as fault:
        print(f"openings/find.py: {fault}", file=sys.stderr)
        return 1


if __name__ == "__main__":
    # A shell has it ignored in the background.
    signal.signal(signal.SIGINT, signal.default_int_handler)
    try:
        sys.exit(main())
    except KeyboardInterrupt:
        sys.exit(INTERRUPTED)
