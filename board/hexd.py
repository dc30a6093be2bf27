"""A client of hexd in Python's standard library: sessions of the Hex Text Protocol, `hexd check`, `hexd solve`, and records.

    import hexd
    with hexd.Engine.start("--size", "5") as engine:
        answer = engine.ask("genmove b")                    # Answer(done=True, text="c3", ..)
    hexd.check(b"hexcert 1\\n..")                            # "yes semi"
    hexd.solve(b"(;GM[11]SZ[3];B[b2])").first               # "won black"
    hexd.records.read(b"(;SZ[5];B[C3];W[ce])").main         # "(;FF[4]GM[11]SZ[5];B[c3];W[c5])"

It knows how lines and answers are cut (docs/use/MANUAL.md) and what a command's name is, and no rule of the game. Who copies
it takes records.py, sgf.py and charsets.py with it.
"""

import os
import shutil
import signal
import subprocess
import tempfile
import threading
from collections.abc import Sequence
from dataclasses import dataclass
from pathlib import Path
from typing import IO

import records  # noqa: F401  A caller's hexd.records.

# The program: HEXD in the environment, as bin/hexd-board and bin/hexd-report set it, else bin/hexd of the tree, else that of the
# path, if this was installed by pip.
OF_TREE = Path(__file__).resolve().parent.parent / "bin" / "hexd"


def program_of(word: str) -> Path:
    """The program that a word names, as a shell finds it: without a slash by the path. A Path alone would lose a `./`."""
    return Path(word if "/" in word else shutil.which(word) or word).absolute()


PROGRAM = program_of(os.environ.get("HEXD") or str(OF_TREE if OF_TREE.exists() else shutil.which("hexd") or OF_TREE))
# How long a process may take to end once its input has ended or it was killed, in seconds.
GRACE = 30
# The bytes that hexd drops from a line.
CONTROL = bytes(byte for byte in (*range(32), 127) if byte != 9)
# A line of more bytes is answered `line too long`, whatever it holds.
LONGEST_LINE = 4096


class EngineEnded(Exception):
    """The process has ended; its text says why, in words for a reader, and `status` how (None: it was not waited for)."""

    def __init__(self, why, status=None):
        super().__init__(why)
        self.status = status


@dataclass(frozen=True)
class Answer:
    """What hexd answers to one line: whether it was done, the text behind `=` or `?` and the id, and all of it."""

    done: bool
    text: str
    whole: str

    @classmethod
    def of(cls, whole: str) -> "Answer":
        head, _, text = whole.partition(" ")
        return cls(head.startswith("="), text, whole)


def command_name(line: str) -> str | None:
    """The name of the command of a line, or None where hexd doesn't answer the line or finds no name in it.

    The line has no control characters. A comment is dropped, and an id before the name.
    """
    words = line.split("#")[0].split(" ")
    words = [word for word in words if word]
    if words and words[0].isdigit() and len(words[0]) <= 10 and int(words[0]) <= 2_147_483_647:
        return words[1] if len(words) > 1 else None
    return words[0] if words else None


def is_answered(line: str) -> bool:
    """Whether hexd answers a line, and once: nothing is answered if a line has no word before a comment."""
    given = line.encode()
    words = given.translate(None, CONTROL).partition(b"#")[0]
    return b"\n" not in given and (bool(words.strip(b" \t")) or len(given) > LONGEST_LINE)


def why_ended(status: int, errors: str) -> str:
    """Why a process ended, in words: by which signal, or with which status and line on standard error."""
    if status < 0:
        return f"hexd was ended by signal {-status} ({signal.strsignal(-status)})"
    return f"hexd ended with status {status}" + (f" ({errors.strip()})" if errors.strip() else "")


class Engine:
    """One process that speaks HTP, in a folder. Its calls may come from several threads: one line is asked at a time."""

    def __init__(self, command: Sequence, folder: Path | str | None = None, errors: IO | int | None = subprocess.PIPE):
        self.folder = folder
        self.turn = threading.Lock()
        self.process = subprocess.Popen(
            [str(word) for word in command],
            cwd=folder,
            stdin=subprocess.PIPE,
            stdout=subprocess.PIPE,
            stderr=errors,
        )

    @classmethod
    def start(cls, *words: str, program: Path | str = PROGRAM) -> "Engine":
        """A session with these words of hexd, whose lines on standard error go where this process's go."""
        return cls([program, "htp", *words], errors=None)

    def __enter__(self) -> "Engine":
        return self

    def __exit__(self, *_) -> None:
        self.kill()

    def ask(self, line: str, seconds: float | None = None) -> Answer:
        """Sends one line, and gives its answer. EngineEnded if the process is no more, or takes longer than this and is ended;
        ValueError for a line that hexd doesn't answer once."""
        if not is_answered(line):
            raise ValueError(f"hexd doesn't answer this line once: {line[:40]!r}")
        with self.turn:
            return self._ask_in(line, seconds)

    def load(self, record: bytes, seconds: float | None = None) -> Answer:
        """Has the bytes of a record loaded from a file in the process's folder, and gives the answer to that."""
        with self.turn, tempfile.NamedTemporaryFile(dir=self.folder, suffix=".sgf") as file:
            file.write(record)
            file.flush()
            # A name of its folder has no space, as `loadsgf` wants it.
            return self._ask_in(f"loadsgf {Path(file.name).name if self.folder else file.name}", seconds)

    def close(self) -> int:
        """Ends the session by the end of its input, and gives the process's status."""
        with self.turn:
            for pipe in (self.process.stdin, self.process.stdout, self.process.stderr):
                if pipe:
                    pipe.close()
        return self.process.wait(GRACE)

    def _ask_in(self, line, seconds):
        """The answer to a line; the process is ended if it takes longer than this."""
        if seconds is None:
            return self._ask(line)
        late = threading.Event()
        timer = threading.Timer(seconds, lambda: (late.set(), self.process.kill()))
        # Who is interrupted doesn't wait for it.
        timer.daemon = True
        timer.start()
        try:
            answer = self._ask(line)
        except EngineEnded:
            if not late.is_set():
                raise
        finally:
            timer.cancel()
        if late.is_set():
            raise EngineEnded(f"hexd took longer than {seconds} seconds", -signal.SIGKILL)
        return answer

    def _ask(self, line):
        try:
            self.process.stdin.write(line.encode() + b"\n")
            self.process.stdin.flush()
        except (OSError, ValueError):
            raise self._ended() from None
        lines = []
        while True:
            try:
                got = self.process.stdout.readline()
            except ValueError:
                got = b""
            if not got.endswith(b"\n"):
                raise self._ended()
            # Other programs of GTP may send carriage returns, which say nothing, and bytes that are no UTF-8.
            text = got[:-1].replace(b"\r", b"").decode(errors="replace")
            if not text:
                return Answer.of("\n".join(lines))
            lines.append(text)

    def _ended(self):
        try:
            status = self.process.wait(GRACE)
            errors = self.process.stderr.read().decode(errors="replace") if self.process.stderr else ""
        except subprocess.TimeoutExpired:
            return EngineEnded("hexd has closed its output")
        except ValueError:
            errors = ""
        return EngineEnded(why_ended(status, errors), status)

    def kill(self) -> None:
        """Ends the process, whatever it does, and waits for its end. Who asks it just then meets EngineEnded."""
        self.process.kill()
        self.process.wait(GRACE)
        with self.turn:
            for pipe in filter(None, (self.process.stdin, self.process.stdout, self.process.stderr)):
                try:
                    pipe.close()
                except OSError:
                    pass


def check(certificate: bytes, program: Path | str = PROGRAM, seconds: float | None = None) -> str:
    """What a process of its own says of the bytes of a certificate: the line that `hexd check` writes.

    EngineEnded where it ends otherwise than with a verdict, or takes longer than this.
    """
    try:
        run = subprocess.run([str(program), "check"], input=certificate, capture_output=True, timeout=seconds)
    except subprocess.TimeoutExpired:
        raise EngineEnded(f"hexd check took longer than {seconds} seconds") from None
    if run.returncode not in (0, 1):
        raise EngineEnded(why_ended(run.returncode, run.stderr.decode(errors="replace")), run.returncode)
    return run.stdout.decode().strip()


@dataclass(frozen=True)
class Solved:
    """What `hexd solve` says of a position: its first line, as `won black`, and the certificate behind it, if any."""

    first: str
    certificate: str

    @classmethod
    def of(cls, text: str) -> "Solved":
        first, _, certificate = text.partition("\n")
        return cls(first, certificate)

    @property
    def winner(self) -> str | None:
        """Who wins, "black" or "white"; None if it isn't known."""
        word, *rest = self.first.split(" ")
        return {"won": rest[:1], "over": rest[:1], "too": rest[1:2]}.get(word, [None])[0]


class Solver:
    """One process `hexd solve`, which can be ended while it works."""

    def __init__(self, budget: int | None = None, program: Path | str = PROGRAM, words: Sequence[str] = ()):
        command = [str(program), "solve", *([] if budget is None else ["--budget", str(budget)]), *words]
        self.process = subprocess.Popen(command, stdin=subprocess.PIPE, stdout=subprocess.PIPE, stderr=subprocess.PIPE)

    def answer(self, record: bytes, seconds: float | None = None) -> str:
        """All that it says of the position of a record's bytes. EngineEnded where it ends without a word on it, or takes
        longer than this."""
        try:
            said, errors = self.process.communicate(record, seconds)
        except subprocess.TimeoutExpired:
            self.kill()
            self.process.communicate()
            raise EngineEnded(f"hexd solve took longer than {seconds} seconds") from None
        if self.process.returncode not in (0, 1):
            raise EngineEnded(why_ended(self.process.returncode, errors.decode(errors="replace")), self.process.returncode)
        return said.decode()

    def kill(self) -> None:
        self.process.kill()


def solve(
    record: bytes, budget: int | None = None, program: Path | str = PROGRAM, seconds: float | None = None
) -> Solved:
    """Who wins the position of a record's bytes: Solved. EngineEnded as with Solver."""
    return Solved.of(Solver(budget, program).answer(record, seconds))
