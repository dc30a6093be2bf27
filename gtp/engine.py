"""What a line of a driver asks, and a session of hexd of which commands are asked."""

import contextlib
import ctypes
import os
import resource
import select
import signal
import subprocess
from pathlib import Path

import limits
from programs import HEXD, Hexd, HexdEnded

# The status of what ends before the program begins, as in tools/program.bash.
NOT_STARTED = 125
# The C library, and a number of its linux/prctl.h.
LIBRARY, PR_SET_PDEATHSIG = ctypes.CDLL(None), 1
# So often it is looked whether anybody still reads the answers.
LOOK_SECONDS = 1
# What isn't hexd has so many seconds to end once its input has ended.
GRACE = 5


class Refused(Exception):
    """A command's failure, with its message."""


class TooLate(Exception):
    """hexd hasn't answered in the time that it had. It goes on."""


class NotStarted(Exception):
    """hexd can't be started, or what was started isn't hexd; with a line that says why, and a status."""

    def __init__(self, why, status):
        super().__init__(f"hexd can't be started: {HEXD}: {why}")
        self.status = status


class Request:
    """What a line asks: its id or nothing, the command's name or nothing, and what stands after the name."""

    def __init__(self, number, name, rest):
        self.number, self.name, self.rest = number, name, rest
        self.args = rest.split()


def end_with(parent):
    """Has the system kill this process once its parent ends, however that comes."""
    LIBRARY.prctl(PR_SET_PDEATHSIG, signal.SIGKILL)
    # It may have ended before.
    if os.getppid() != parent:
        os._exit(NOT_STARTED)


def number_in(words, name, default):
    """The number of an option among words of hexd's."""
    return int(next((word.partition("=")[2] for word in words if word.startswith(f"--{name}=")), default))


class Engine(Hexd):
    """A session of hexd, of which commands are asked. Its processes end with the filter (end_all, end_with), and have limits."""

    running = set()

    def __init__(self, words):
        # By these the seed of its next move is known.
        self.seed, self.made = number_in(words, "seed", 0), 0
        self.workers = number_in(words, "workers", 1)
        try:
            super().__init__(words, preexec_fn=lambda parent=os.getpid(): end_with(parent))
        except OSError as fault:
            raise NotStarted(fault.strerror, NOT_STARTED) from None
        self.running.add(self.process)
        memory = limits.memory_of_session(self.workers)
        limits.set_limit(self.process, resource.RLIMIT_AS, memory, memory)

    def send(self, piece):
        """Hands over a part of the input, for which hexd has a session's time anew: a tournament may last for days."""
        seconds = int(time_of(self.process)) + limits.SESSION_SECONDS * self.workers
        limits.set_limit(self.process, resource.RLIMIT_CPU, seconds, resource.RLIM_INFINITY)
        super().send(piece)

    def ask(self, command, limit=None):
        """The text of a command's success, which has so many seconds, or as many as it takes."""
        self.send(command + b"\n")
        if limit is not None and not select.select([self.process.stdout], [], [], limit)[0]:
            raise TooLate
        answer = self.answer()
        if not answer.endswith(b"\n\n"):
            raise HexdEnded
        if answer[:1] == b"?":
            raise Refused(answer[2:-2])
        self.made += command.startswith(b"genmove")
        return answer[2:-2]

    def tell(self, command):
        """The same, with None for a failure."""
        try:
            return self.ask(command)
        except Refused:
            return None

    def greet(self):
        """Hears that it is hexd."""
        try:
            name = self.ask(b"name")
        except (HexdEnded, Refused):
            name = None
        if name == b"hexd":
            return
        # It may have ended already, with the question unread.
        with contextlib.suppress(BrokenPipeError):
            self.process.stdin.close()
        try:
            self.process.wait(GRACE)
        except subprocess.TimeoutExpired:
            self.process.kill()
        status = self.close()
        raise NotStarted(f"it doesn't answer as hexd does, and ends with status {status}", status or NOT_STARTED)

    def load(self, file):
        """Has it load an open file."""
        self.ask(b"loadsgf /proc/%d/fd/%d" % (os.getpid(), file))

    def load_text(self, record):
        """Has it load the bytes of a record, which stand in memory alone."""
        file = os.memfd_create("game")
        try:
            os.write(file, record)
            self.load(file)
        finally:
            os.close(file)

    def close(self):
        status = super().close()
        self.running.discard(self.process)
        return status


def beside(words, given, held):
    """What another run of hexd with these words, and so much memory and time, writes on an input. It ends with the filter too."""
    pipe = subprocess.PIPE
    process = subprocess.Popen([HEXD, *words], stdin=pipe, stdout=pipe, preexec_fn=lambda parent=os.getpid(): end_with(parent))
    Engine.running.add(process)
    limits.hold(process, *held)
    try:
        while True:
            with contextlib.suppress(subprocess.TimeoutExpired):
                return process.communicate(given, LOOK_SECONDS)[0]
            given = None
            if is_alone():
                raise HexdEnded
    finally:
        process.kill()
        Engine.running.discard(process)


def is_alone():
    """Whether nobody is left to read the answers."""
    output = select.poll()
    output.register(1, 0)
    return bool(output.poll(0))


def end_all(number, _):
    """Ends each hexd at once, whatever it does, and the filter by this signal."""
    for process in list(Engine.running):
        process.kill()
    signal.signal(number, signal.SIG_DFL)
    os.kill(os.getpid(), number)


def time_of(process):
    """The processor's time of a process, in seconds."""
    words = Path(f"/proc/{process.pid}/stat").read_text().rpartition(")")[2].split()
    return (int(words[11]) + int(words[12])) / os.sysconf("SC_CLK_TCK")
