"""Tests how find.py, openings/job, openings/check and openings/gather end: by a signal, or because a worker or a reader has
ended. None of them leaves a process behind."""

import contextlib
import os
import re
import shutil
import signal
import subprocess
import time
from pathlib import Path

import limits
from find import INTERRUPTED
from openings import ENDING
from tests.of_jobs import GATHER, JOB, TICK, children, is_running, is_search, kill_session, members
from tests.support import FOLDER, expect, skip

FIND, CHECK = FOLDER / "find.py", FOLDER / "check"
# The status of a check that couldn't be made.
NOT_RUN = 3
# Far longer than an end takes, in seconds: only what doesn't end reaches it.
LONGEST = 30


def is_met(condition):
    """Whether a condition comes to hold."""
    until = time.monotonic() + LONGEST
    while not (met := condition()) and time.monotonic() < until:
        time.sleep(TICK)
    return met


def search_of(process):
    """The number of the search that a process has begun, once it is hexd; None if the process ends."""
    while process.poll() is None:
        for number, words in children(process):
            if is_search(words):
                return number
        time.sleep(TICK)
    return None


def blocked(number):
    """The set of signals that a process doesn't hear, as a number."""
    return int(re.search(r"^SigBlk:\s+(\w+)$", Path(f"/proc/{number}/status").read_text(), re.M)[1], 16)


def expect_ended_with(words, by):
    """The search of a command hears each signal, and ends with the command, which this signal ends."""
    process = subprocess.Popen(words, stdout=subprocess.DEVNULL, stderr=subprocess.DEVNULL)
    search, what = search_of(process), f"{words[0].name} after {by.name}"
    if search is None:
        return expect(False, f"{what}: no search, and status {process.returncode}")
    unheard = blocked(search)
    expect(unheard == 0, f"{what}: its search doesn't hear {unheard:x}")
    process.send_signal(by)
    process.wait()
    has_ended = is_met(lambda: not is_running(search))
    expect(has_ended, f"{what}: its search goes on")
    return has_ended or os.kill(search, signal.SIGKILL)


def expect_ended_searches(folder):
    """However find.py and a job end, their search ends with them."""
    if not limits.DYING:
        return skip("ends of searches", "util-linux")
    for words in ([FIND, "--out", folder, "7-g2"], [JOB, folder, "7-g2"]):
        for by in (signal.SIGTERM, signal.SIGKILL):
            expect_ended_with(words, by)
    return None


def begun(*words):
    """A command with workers, in a session of its own, that has written its first line; its errors go the same way."""
    how = {"stdout": subprocess.PIPE, "stderr": subprocess.STDOUT, "text": True, "start_new_session": True}
    process = subprocess.Popen(words, **how)
    process.stdout.readline()
    return process


def end_of(process):
    """The status with which a process ends, and whether it is the last one of its session. Those that are left are killed."""
    with contextlib.suppress(subprocess.TimeoutExpired):
        process.wait(LONGEST)
    is_last = is_met(lambda: not list(members(process.pid)))
    kill_session(process)
    return process.returncode, is_last


def expect_ended_workers(folder):
    """TERM ends openings/check and openings/gather in order, and a worker that is killed in a line."""
    names = [path.name.removesuffix(ENDING) for path in sorted(FOLDER.glob(f"6-*{ENDING}"))]
    for name in names:
        shutil.copy(FOLDER / f"{name}{ENDING}", folder)
    for words in ([CHECK, "3", "4", "5", "6"], [GATHER, folder, *names]):
        expect_ended(words)
        expect_lost_worker(words)


def expect_ended(words):
    process = begun(*words)
    process.terminate()
    ended, said = end_of(process), process.stdout.read()
    fits = ended == (INTERRUPTED, True) and "Traceback" not in said and "accepted" not in said
    expect(fits, f"{words[0].name} after TERM: {ended}, {said[-300:]}")


def expect_lost_worker(words):
    process = begun(*words)
    worker, _ = next(children(process))
    os.kill(worker, signal.SIGKILL)
    ended, said = end_of(process), process.stdout.read()
    is_told = "".join(said.splitlines()[-1:]).startswith(f"openings/{words[0].name}: ")
    fits = ended == (NOT_RUN, True) and is_told and "Traceback" not in said
    expect(fits, f"{words[0].name}, a worker of which is killed: {ended}, {said[-300:]}")


def expect_no_reader():
    """If nobody reads on, as behind `head`, openings/check ends without a word."""
    reader, writer = os.pipe()
    os.close(reader)
    process = subprocess.Popen([CHECK, "3"], stdout=writer, stderr=subprocess.PIPE, text=True, start_new_session=True)
    os.close(writer)
    ended, said = end_of(process), process.stderr.read()
    expect((ended, said) == ((INTERRUPTED, True), ""), f"openings/check without a reader: {ended}, {said}")


TRIALS = (expect_ended_searches, expect_ended_workers)
