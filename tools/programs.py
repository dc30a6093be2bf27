"""What the scripts here and in openings/ share: the program hexd, where it is, one run of it, and a session over pipes; and a
script of tools/ as a module.

HEXD in the environment names the program; if it isn't set that is bin/hexd, which builds it if it isn't fresh.
"""

import gzip
import os
import subprocess
from importlib.machinery import SourceFileLoader
from importlib.util import module_from_spec, spec_from_loader
from pathlib import Path

ROOT = Path(__file__).resolve().parent.parent
HEXD = os.environ.get("HEXD", str(ROOT / "bin" / "hexd"))


def tool(name):
    """A script of tools/ as a module."""
    loader = SourceFileLoader(name, str(ROOT / "tools" / name))
    module = module_from_spec(spec_from_loader(name, loader))
    loader.exec_module(module)
    return module


def released(commit):
    """The program hexd that release/ has in this commit, as a file of the user's cache."""
    # What a launcher gives a program: so programs with and without one start alike (tools/program.bash).
    os.environ.setdefault("GLIBC_TUNABLES", "glibc.malloc.hugetlb=1")
    cache = Path(os.environ.get("XDG_CACHE_HOME") or Path.home() / ".cache")
    path = cache / "hexd" / commit / "hexd"
    if not path.exists():
        packed = subprocess.run(["git", "show", f"{commit}:release/hexd.gz"], cwd=ROOT, capture_output=True, check=True).stdout
        path.parent.mkdir(parents=True, exist_ok=True)
        part = path.with_suffix(f".{os.getpid()}")
        part.write_bytes(gzip.decompress(packed))
        part.chmod(0o755)
        part.replace(path)
    return path


def run(*words, given=b""):
    """What a run of hexd with these words writes on an input, and its status."""
    done = subprocess.run([HEXD, *words], input=given, capture_output=True)
    return done.stdout, done.returncode


def checked(text):
    """The line that `hexd check` writes of a text, without its line feed, and its status."""
    said, status = run("check", given=text)
    return said.decode().removesuffix("\n"), status


class HexdEnded(Exception):
    """hexd has ended."""


class Hexd:
    """A session of hexd, whose lines and answers are bytes as they come."""

    def __init__(self, words, **how):
        command = [HEXD, "htp", *words]
        # A file of --trace that may grow no more is hexd's to tell, and no signal that ends it: Python ignores that one.
        pipes = {"stdin": subprocess.PIPE, "stdout": subprocess.PIPE}
        self.process = subprocess.Popen(command, **pipes, restore_signals=False, **how)

    def send(self, piece):
        """Hands over a part of the input."""
        try:
            self.process.stdin.write(piece)
            self.process.stdin.flush()
        except BrokenPipeError:
            raise HexdEnded from None

    def answer(self):
        """The next answer, with the empty line that ends it; less if hexd ends within it."""
        lines = []
        while lines[-1:] != [b"\n"]:
            line = self.process.stdout.readline()
            if not line:
                break
            lines.append(line)
        return b"".join(lines)

    def close(self):
        """Ends the process, and waits for its status: that of a shell if a signal ended it."""
        try:
            self.process.stdin.close()
        except BrokenPipeError:
            pass
        self.process.stdout.close()
        status = self.process.wait()
        return status if status >= 0 else 128 - status


def size_of(process):
    """The memory that a process holds (VmRSS), in KiB."""
    status = Path(f"/proc/{process.pid}/status").read_text()
    return int(status.split("VmRSS:")[1].split()[0])
