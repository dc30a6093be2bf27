"""Runs of hexd to be made by the built program and in a page: words, input and the file that `loadsgf record.sgf` reads."""

import lzma
import random
import subprocess
from dataclasses import dataclass
from pathlib import Path

ROOT = Path(__file__).resolve().parent.parent
FILE_NAME = "record.sgf"
RECORDS = [
    b"(;FF[4]GM[11]SZ[5];B[a2];W[swap-pieces];B[c3])",
    b"(;GM[11]SZ[4]AB[a1][b2]AW[c3];W[d4](;B[a4])(;B[a3]))",
    b"(;GM[1])",
    b"",
    b"\xff",
]
# What a session has beside moves.
COMMANDS = ["showboard", "mustplay", "wincert", "search-report", "undo", "winner", "printsgf", "list_commands", "version"]
COMMANDS += ["clear_board", "play w swap-pieces", "12 name", "# nothing", "known_command play", f"loadsgf {FILE_NAME}"]
COMMANDS += ["loadsgf none", "play b z9", "\0\7play b a1\t", "boardsize 0", "foo"]
USAGE = ["", "htp x", "help", "--help", "htp --size 12", "htp --workers 0", "htp --seed 18446744073709551616", "htp htp"]


@dataclass(frozen=True)
class Case:
    words: tuple
    input: bytes = b""
    file: bytes | None = None


def session(draw):
    """A session with options and lines as they come."""
    size = draw.randrange(1, 12)
    words = ["htp", "--size", size, "--playouts", draw.choice([1, 10, 100, 1000, 3000])]
    options = {"hsearch": ["off"], "weight": [0, 50, 1000], "seed": [draw.randrange(2**64)], "expand": [1, 3, 20],
               "words": [1024, 4096, 100000]}
    for name, values in options.items():
        if draw.random() < 0.3:
            words += [f"--{name}", draw.choice(values)]
    lines = [line(draw, size) for _ in range(draw.randrange(3, 16))] + ["quit", "name"] * (draw.random() < 0.3)
    text = "\n".join(lines) + "\n" * (draw.random() < 0.8)
    return Case(tuple(map(str, words)), text.encode("latin-1"), draw.choice([None, *RECORDS]))


def line(draw, size):
    kind = draw.random()
    if kind < 0.35:
        return f"play {draw.choice('bw')} {'abcdefghijk'[draw.randrange(size)]}{draw.randrange(size) + 1}"
    if kind < 0.6:
        return f"genmove {draw.choice('bw')}"
    return draw.choice(COMMANDS)


def damaged(draw, content):
    at = draw.randrange(len(content))
    return content[:at] + bytes([draw.randrange(32, 127)]) + content[at + 1 :]


def certificates(draw, count):
    """Certificates checked and brought to version 2, as they are and with one byte changed."""
    packed = sorted((ROOT / "openings").glob("*.cert.xz"))
    texts = [file.read_bytes() for file in sorted((ROOT / "examples" / "certificates").glob("*.cert"))]
    texts += [lzma.decompress(file.read_bytes()) for file in draw.sample(packed, min(len(packed), count))]
    for text in texts:
        yield Case(("check",), text)
        yield Case(("migrate",), text)
        yield Case(("check",), damaged(draw, text))


def positions(most):
    for size in range(1, most + 1):
        yield Case(("solve",), b"(;GM[11]SZ[%d])" % size)
        yield Case(("solve", "--hsearch", "off", "--budget", "1000"), b"(;GM[11]SZ[%d];B[a1])" % size)
    yield Case(("solve",), b"nothing")


def traces(draw, program, folder):
    """Traces audited, as they are and with one byte changed."""
    for size in (3, 5, 7):
        file = folder / f"trace-{size}"
        words = ["bench", "--size", str(size), "--playouts", "500", "--seed", str(size), "--trace", str(file)]
        subprocess.run([program, *words], stdin=subprocess.DEVNULL, stdout=subprocess.DEVNULL, check=True)
        yield Case(("audit",), file.read_bytes())
        yield Case(("audit",), damaged(draw, file.read_bytes()))


def searches():
    for seed, size in enumerate((1, 4, 8, 11)):
        yield Case(("bench", "--size", str(size), "--playouts", "2000", "--seed", str(seed)))
        yield Case(("sim", "--size", str(size), "--playouts", "300", "--workers", str(1 + 3 * seed), "--seed", str(seed)))


def cases(program, folder, sessions, openings, most):
    """So many sessions, so many openings, and positions up to a size."""
    draw = random.Random(47)
    return [
        *(session(draw) for _ in range(sessions)),
        *certificates(draw, openings),
        *positions(most),
        *traces(draw, program, folder),
        *searches(),
        *(Case(tuple(words.split()), b"name\n") for words in USAGE),
    ]


def native(program, case, folder):
    """The output, the standard error and the status of the built program."""
    file = folder / FILE_NAME
    file.unlink(missing_ok=True)
    if case.file is not None:
        file.write_bytes(case.file)
    ran = subprocess.run([program, *case.words], input=case.input, capture_output=True, cwd=folder)
    return ran.stdout, ran.stderr, ran.returncode
