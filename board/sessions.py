"""The server's sessions: each is one process `hexd htp` in a folder of its own, under a random name."""

import contextlib
import secrets
import shutil
import threading
import time
from concurrent.futures import ThreadPoolExecutor
from dataclasses import dataclass, field
from pathlib import Path

import limits
import settings
import troubles
from hexd import Engine, EngineEnded

# A page that is opened again and again must not fill the machine with processes.
MOST_SESSIONS = MOST_SOLVERS = 16
IDLE_SECONDS = 3600
# Of so many sessions that ended by themselves it is still known why.
MOST_REASONS = 256


class Refusal(Exception):
    """A request that isn't done: its status and one line that says why."""

    def __init__(self, status, why):
        super().__init__(why)
        self.status, self.why = status, why


@dataclass
class Session:
    """A process, its folder, and when it was last used."""

    engine: Engine
    folder: Path
    used: float = field(default_factory=time.monotonic)
    solvers: list = field(default_factory=list)
    # How many requests are at work in it: such a session is not idle, however long they take.
    working: int = 0

    def kill(self):
        for process in (*self.solvers, self.engine):
            process.kill()


class Sessions:
    """The sessions that are open, and of others why they ended. `given` are settings.Given, `others` hexd's further words."""

    def __init__(self, program, given, others, folder):
        self.program, self.given, self.others, self.folder = program, given, others, Path(folder)
        self.open, self.reasons, self.solvers = {}, {}, 0
        self.turn = threading.Lock()
        # Processes end with the thread that starts them, and this one lasts as long as the server.
        self.starting = ThreadPoolExecutor(max_workers=1)

    def words(self, options):
        """The words for a process with these options; without any as the server was started, or as strong as by default."""
        given = self.given.usual if options is None else options
        words = settings.words_of({**given, "workers": self.given.workers})
        # A word of the user's own stands in the place of one of the page's.
        own = {word.split("=")[0] for word in self.others if word.startswith("--")}
        return [*(word for word in words if word.split("=")[0] not in own), *self.others]

    def told(self):
        """What the page is told of the settings, as JSON takes it: both tables, how the server was started, and the workers."""
        started, workers = self.given.started, self.given.workers
        return {"table": settings.TABLE, "guessed": settings.GUESSED, "started": started, "workers": workers}

    def make(self, options=None):
        """Starts a process and gives its session's name."""
        with self.turn:
            if len(self.open) >= MOST_SESSIONS:
                raise Refusal(429, f"there are {MOST_SESSIONS} sessions: close a page that has one")
            name = secrets.token_hex(8)
            folder = self.folder / name
            try:
                # Who cleans up temporary files may have taken the server's own folder.
                folder.mkdir(parents=True)
            except OSError as fault:
                raise Refusal(500, troubles.told(f"the server's folder {self.folder} can't be written", fault)) from None
            try:
                engine = self.starting.submit(self._engine, folder, options).result()
            except OSError as fault:
                folder.rmdir()
                raise self._not_started(fault) from None
            limits.hold_session(engine.process, self.given.workers)
            self.open[name] = Session(engine, folder)
            return name

    def _engine(self, folder, options):
        return Engine(limits.dying(self.program, ["htp", *self.words(options)]), folder)

    def _not_started(self, fault):
        return Refusal(500, troubles.told(f"the program {self.program} can't be started", fault))

    def ask(self, name, line):
        """The answer to one line, whole. A line for the same session waits until the one before is answered."""
        return self._with(name, lambda engine: engine.ask(line).whole)

    def load(self, name, record):
        """The answer to loading the bytes of a record."""
        return self._with(name, lambda engine: engine.load(record).whole)

    def check(self, name, certificate):
        """What a second process says of a certificate."""
        self._find(name)
        try:
            return limits.check(certificate, self.program)
        except OSError as fault:
            raise self._not_started(fault) from None
        except EngineEnded as fault:
            raise Refusal(500, f"the certificate is not checked: {fault}. {troubles.KEPT} Try again.") from None

    def solve(self, name, record, budget, client=None):
        """What `hexd solve` says of the position of a record, in a process that ends with the session, and with its client, a
        socket."""
        try:
            with self._used(name) as session, self._solver(session, budget) as solver:
                if client:
                    solver.end_with(client)
                # A session that was ended meanwhile has ended those alone that it had.
                if self.open.get(name) is not session:
                    solver.kill()
                return solver.answer(record).rstrip("\n")
        except EngineEnded as ended:
            if name in self.reasons:
                raise Refusal(410, self.reasons[name]) from None
            raise Refusal(500, f"this position is not solved: {ended}. {troubles.KEPT} Try again.") from None
        except OSError as fault:
            raise self._not_started(fault) from None

    @contextlib.contextmanager
    def _solver(self, session, budget):
        """A solver among those of a session, of which there are few in all."""
        with self.turn:
            if self.solvers >= MOST_SOLVERS:
                raise Refusal(429, f"there are {MOST_SOLVERS} positions at work: stop one of them, or wait")
            self.solvers += 1
        solver = None
        try:
            solver = limits.Solver(budget, self.program)
            session.solvers.append(solver)
            yield solver
        finally:
            if solver:
                solver.kill()
                session.solvers.remove(solver)
            with self.turn:
                self.solvers -= 1

    def make_room(self):
        """Ends the session that was not used for the longest time, where there are as many as may be."""
        with self.turn:
            order = lambda name: (self.open[name].working > 0, self.open[name].used)  # noqa: E731
            oldest = min(self.open, key=order) if len(self.open) >= MOST_SESSIONS else None
        return "ended" if oldest and self.end(oldest, "another page needed its place") else "there is room"

    def end(self, name, why=None):
        """Ends a session and its process, and takes its folder away. With a reason, later requests are told it."""
        with self.turn:
            session = self.open.pop(name, None)
            if session is not None and why is not None:
                self.reasons[name] = why
                while len(self.reasons) > MOST_REASONS:
                    del self.reasons[next(iter(self.reasons))]
        if session is not None:
            session.kill()
            shutil.rmtree(session.folder, ignore_errors=True)
        return session is not None

    def end_idle(self):
        """Ends each session that was not used for an hour."""
        past = time.monotonic() - IDLE_SECONDS
        with self.turn:
            idle = [name for name, session in self.open.items() if not session.working and session.used < past]
        for name in idle:
            self.end(name, "the session was not used for an hour")

    def close(self):
        for name in list(self.open):
            self.end(name, "the server ends")

    def _find(self, name):
        with self.turn:
            if name in self.reasons:
                raise Refusal(410, self.reasons[name])
            if name not in self.open:
                raise Refusal(404, "there is no such session")
            self.open[name].used = time.monotonic()
            return self.open[name]

    @contextlib.contextmanager
    def _used(self, name):
        """A session, which is at work meanwhile."""
        session = self._find(name)
        with self.turn:
            session.working += 1
        try:
            yield session
        finally:
            with self.turn:
                session.working -= 1
                session.used = time.monotonic()

    def _with(self, name, use):
        try:
            with self._used(name) as session:
                return use(session.engine)
        except EngineEnded as ended:
            self.end(name, str(ended))
            raise Refusal(410, self.reasons.get(name, "the session was ended")) from None
        except FileNotFoundError:
            # The record has no place there, and another session gets another folder.
            self.end(name, "its folder was taken away")
            raise Refusal(410, self.reasons.get(name, "the session was ended")) from None
        except OSError as fault:
            raise Refusal(500, troubles.told(f"hexd can't be given the game by a file of {session.folder}", fault)) from None
