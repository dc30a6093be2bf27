"""hexd under limits, for what strangers send: of memory and of the processor's time, as SECURITY.md has them; and an end for each
process that works on a request."""

import contextlib
import errno
import os
import resource
import select
import shutil
import subprocess
import threading

import hexd

GIB = 1 << 30
# A session, and a check; for a solver so much more for a position that it may enter, up to a most.
SESSION_BYTES, CHECK_BYTES, SOLVE_BYTES = 4 * GIB, GIB, GIB
POSITION_BYTES, MOST_BYTES = 1_024, 64 * GIB
# For each worker of a session: its stack, and what the C library reserves for a thread.
WORKER_BYTES = GIB // 8
# Of the processor's time a session has a day for each worker; a check has so much, and a solver more for a position.
SESSION_SECONDS, CHECK_SECONDS, SOLVE_SECONDS, POSITION_SECONDS = 86_400, 120, 60, 4
MOST_SECONDS = 2**31
# How often who watches a client looks whether the solver still works.
WATCH_MILLISECONDS = 500
# With these words of util-linux before its own a process ends with the thread that started it.
DYING = [word for found in [shutil.which("setpriv")] if found for word in (found, "--pdeathsig", "KILL", "--")]


def lower(one, other):
    """The lower one of two limits."""
    return max(one, other) if resource.RLIM_INFINITY in (one, other) else min(one, other)


def set_limit(process, kind, soft, hard):
    """Sets a process's limits of a kind. Lower ones of the environment stand."""
    # It may have ended already.
    with contextlib.suppress(ProcessLookupError):
        resource.prlimit(process.pid, kind, tuple(map(lower, (soft, hard), resource.getrlimit(kind))))


def hold(process, memory, seconds):
    """Sets a process's limits, which has begun and got nothing to do yet."""
    set_limit(process, resource.RLIMIT_AS, memory, memory)
    # At the first number of seconds comes a signal that says why the process ends.
    set_limit(process, resource.RLIMIT_CPU, seconds, seconds + 1)


def memory_of_session(workers):
    return SESSION_BYTES + WORKER_BYTES * workers


def hold_session(process, workers=1):
    """Sets the limits of a session with so many workers."""
    hold(process, memory_of_session(workers), SESSION_SECONDS * workers)


def of_solver(budget):
    """The memory and the seconds of a solver that may enter so many positions."""
    memory, seconds = SOLVE_BYTES + POSITION_BYTES * budget, SOLVE_SECONDS + POSITION_SECONDS * budget
    return min(MOST_BYTES, memory), min(MOST_SECONDS, seconds)


def dying(program, words):
    """The command of a program that ends with the thread that starts it, if util-linux is there. OSError without the program."""
    # setpriv would say that in its own way.
    if not shutil.which(program):
        fault = errno.EACCES if os.path.exists(program) else errno.ENOENT
        raise OSError(fault, os.strerror(fault), str(program))
    return [*DYING, str(program), *words]


class Held(hexd.Solver):
    """One process of hexd under limits, which answers once, and ends with the thread that starts it."""

    def __init__(self, program, words, memory, seconds):
        pipe = subprocess.PIPE
        self.process = subprocess.Popen(dying(program, words), stdin=pipe, stdout=pipe, stderr=pipe)
        hold(self.process, memory, seconds)


class Solver(Held):
    """`hexd solve`, with so much as its budget of positions may take."""

    def __init__(self, budget, program, words=()):
        super().__init__(program, ["solve", "--budget", str(budget), *words], *of_solver(budget))

    def end_with(self, client):
        """Sees to it that it ends when its client has gone: closed the connection, or its half of it."""
        threading.Thread(target=self._watch, args=(client,), daemon=True).start()

    def _watch(self, client):
        gone = select.poll()
        gone.register(client, select.POLLRDHUP)
        while self.process.returncode is None:
            if gone.poll(WATCH_MILLISECONDS):
                self.kill()
                return


def check(certificate, program):
    """What `hexd check` says of the bytes of a certificate: its line. EngineEnded where it ends without one."""
    return Held(program, ["check"], CHECK_BYTES, CHECK_SECONDS).answer(certificate).strip()
