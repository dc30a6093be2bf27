#!/usr/bin/env python3
"""Compares tools/second_checker.py with `hexd check` on certificates and on changed ones.

    tools/fuzz_certificates.py [COUNT [SEED]]

Both are handed the same bytes: each file of examples/certificates, each prefix of V1, the long texts that
docs/use/CERTIFICATES.md describes, and COUNT changed certificates (3,000 if it isn't said), which SEED (1) determines. A
changed one is a file of examples/certificates, or a short certificate of openings/, after one to three changes: of a
number, a vertex, a name, the head, how many numbers an `or` has, the order of lines, or of any byte. Half of them grew
before that, by one to four lines `lift`, whose entries lines below take in place of what is lifted, or only grew.

It prints how often each answer came, with no line numbers; a text on which the two differ is kept in a file, which is
named. It ends with 1 if there is one. With a COUNT of 1,000 or more it also does if some number of refusal never came,
or one that a line `lift` can have not at such a line, or if no text with such a line was accepted. The long texts of
version 4 are there only then.

HEXD names the program; if it isn't set that is bin/hexd.
"""

import random
import re
import sys
import tempfile
from collections import Counter

import second_checker
from programs import ROOT, run

SHORT = 1_000
MANY = 1_000
REASONS = range(1, 14)
# What can be said of a line `lift`: by which number it is refused, or that the text is accepted.
OF_LIFTS = 1, 12, "yes"
# The lines before the derivation.
HEAD = 5
MOST_WAYS = 127
NAMES = [["and", "key", "or", "cases"], ["put", "done"], ["full", "semi"], ["black", "white"]]
ODD_BYTES = b"\x00\t\n\r 01a\xff"


def examples():
    """The files of examples/certificates."""
    return [path.read_bytes() for path in sorted((ROOT / "examples" / "certificates").glob("*.cert"))]


def shelved():
    """The certificates of openings/ that have few lines; none if Python has no lzma."""
    try:
        import lzma
    except ImportError:
        return []
    texts = (lzma.decompress(path.read_bytes()) for path in sorted((ROOT / "openings").glob("[345]-*.cert.xz")))
    return [text for text in texts if text.count(b"\n") <= SHORT]


def told_texts(is_short):
    """What docs/use/CERTIFICATES.md describes without a file: the prefixes of V1, and texts of many lines."""
    v1 = (ROOT / "examples" / "certificates" / "v1.cert").read_bytes()
    yield from (v1[:length] for length in range(len(v1)))
    head = b"".join(v1.splitlines(keepends=True)[1:HEAD])
    for version, most in second_checker.MOST_LINES.items():
        for many in (most, most + 1) if version == "1" or version == "4" and not is_short else ():
            yield b"hexcert %s\n" % version.encode() + head + b"adj a1 edge1\n" * many + b"full 0\n"


def cell_order(word):
    """The place of a vertex in rising order of cells; what is none has some place."""
    return word[1:].rjust(2), word[:1]


def some_cell(draw, size):
    return "abcdefghijk"[draw.randrange(size)] + str(draw.randint(1, size))


def change_word(draw, line, lines, size):
    """A number becomes a near one or any, a vertex another or, seldom, an odd word, a name another of the same form."""
    name, *words = line.split(" ")
    if not words or draw.random() < 0.1:
        return " ".join([draw.choice(next((names for names in NAMES if name in names), [name])), *words])
    at = draw.randrange(len(words))
    if words[at].isdigit():
        near = int(words[at]) + draw.choice([-3, -2, -1, 1, 2, 3])
        words[at] = str(max(0, near) if draw.random() < 0.7 else draw.randrange(len(lines)))
    elif draw.random() < 0.05:
        words[at] = draw.choice(["edge1", "edge2", "z1", "a0", "A1", "k11", "white", "black", ""])
    else:
        words[at] = some_cell(draw, size)
    if name in ("put", "black", "white") and draw.random() < 0.95:
        words = sorted(set(words), key=cell_order)
    return " ".join([name, *words])


def change_cells(draw, line, size):
    """A line of cells, with one more or one less."""
    name, *cells = line.split(" ")
    cells = set(cells) ^ {some_cell(draw, size)}
    return " ".join([name, *sorted(cells, key=cell_order)])


def change_ways(draw, line, lines):
    """A line of numbers, with one less or with some more: at times with one more than there may be."""
    name, *numbers = line.split(" ")
    more = draw.choice([0, 1, 1, 2, 3, MOST_WAYS - len(numbers), MOST_WAYS + 1 - len(numbers)])
    numbers += [draw.choice([*numbers, str(draw.randrange(len(lines)))]) for _ in range(more)]
    return " ".join([name, *numbers]) if more else line.rpartition(" ")[0]


def change(draw, text):
    """A text after one change."""
    lines = text.split("\n")
    at, other = draw.randrange(len(lines)), draw.randrange(len(lines))
    size = next((int(line[5:]) for line in lines if re.fullmatch("size [1-9]", line)), 3)
    stones = [k for k, line in enumerate(lines) if line.startswith(("put", "black", "white"))]
    ways = [k for k, line in enumerate(lines) if line.startswith(("or ", "cases "))]
    match draw.choice("wwwwwwwwwwccccppssssddiiimbvvnn"):
        case "w":
            lines[at] = change_word(draw, lines[at], lines, size)
        case "c" if stones:
            at = draw.choice(stones)
            lines[at] = change_cells(draw, lines[at], size)
        case "p" if len(lines) > 2:
            lines[2] = draw.choice(["player white", "player black"])
        case "v":
            lines[0] = "hexcert " + draw.choice("1233333344")
        case "n" if ways:
            at = draw.choice(ways)
            lines[at] = change_ways(draw, lines[at], lines)
        case "s":
            lines[at], lines[other] = lines[other], lines[at]
        case "d":
            del lines[at]
        case "i":
            lines.insert(at, lines[other])
        case "m":
            lines.insert(at, draw.choice(["put", "done", "adj edge1 edge2", "cases 0 1", "or 0 1 2", "lift 0", ""]))
        case _:
            place = draw.randrange(len(text) + 1)
            return text[:place] + chr(draw.choice(ODD_BYTES)) * draw.randrange(2) + text[place + 1 :]
    return "\n".join(lines)


def scopes_of(lines):
    """The scope of each derivation line."""
    scopes, scope = [], frozenset()
    for line in lines:
        name, *words = line.split(" ")
        scope = frozenset(words) if name == "put" else scope
        scopes.append(scope)
    return scopes


def renumbered(draw, line, at, lifted):
    """A line that names the same lines after one more stands at this number; mostly the new one for what that lifts."""

    def moved(word):
        if int(word) == lifted and draw.random() < 0.7:
            return str(at)
        return str(int(word) + (int(word) >= at))

    return " ".join(moved(word) if word.isdigit() else word for word in line.split(" "))


def grow(draw, text):
    """A certificate with a line `lift` more, mostly of an entry whose scope is part of the line's."""
    head, lines = text.split("\n")[1:HEAD], text.split("\n")[HEAD:-1]
    at = draw.randrange(1, len(lines))
    scopes = scopes_of(lines[:at])
    fitting = [k for k in range(at) if scopes[k] <= scopes[-1] and not lines[k].startswith("put")]
    lifted = draw.choice(fitting) if fitting and draw.random() < 0.9 else draw.randrange(at)
    below = [renumbered(draw, line, at, lifted) for line in lines[at:]]
    return "\n".join(["hexcert 4", *head, *lines[:at], f"lift {lifted}", *below, ""])


def grown(draw, text):
    """A certificate with one to four lines `lift`; one that has too few lines for it stays as it is."""
    for _ in range(draw.randint(1, 4)):
        is_whole = text.startswith("hexcert ") and text.count("\n") > HEAD + 1
        text = grow(draw, text) if is_whole else text
    return text


def changed_texts(draw, count):
    """So many changed certificates."""
    known = examples() + shelved()
    for _ in range(count):
        text, is_grown = draw.choice(known).decode("latin-1"), draw.random() < 0.5
        if is_grown:
            text = grown(draw, text)
        for _ in range(0 if is_grown and draw.random() < 0.5 else draw.randint(1, 3)):
            text = change(draw, text)
        yield text.encode("latin-1")


def answer_of_hexd(text):
    """What `hexd check` writes, if its status is the one for it."""
    given, status = run("check", given=text)
    said = given.decode()
    if status != (0 if said.startswith("yes") else 1) or not said.endswith("\n"):
        return f"status {status} with {said!r}"
    return said.removesuffix("\n")


def sort_of(answer):
    """An answer without its line numbers."""
    return re.sub(r"(?<=^no )\d+|(?<=line )\d+", "LINE", answer)


def of_lift(text, answer):
    """What an answer says of a line `lift` of the text; None if it says nothing of one."""
    if refused := re.fullmatch(r"no (\d+) (\d+)", answer):
        at = HEAD + int(refused[1])
        return int(refused[2]) if text.split(b"\n", at + 1)[at].startswith(b"lift ") else None
    return "yes" if answer.startswith("yes ") and b"\nlift " in text else None


def main():
    count, seed = (int(word) for word in (sys.argv[1:] + ["3000", "1"][len(sys.argv) - 1 :]))
    answers, of_changed, of_lifts, differing = Counter(), Counter(), Counter(), 0
    told = [*examples(), *told_texts(count < MANY)]
    for number, text in enumerate([*told, *changed_texts(random.Random(seed), count)]):
        mine, hexds = second_checker.answer(text), answer_of_hexd(text)
        answers[sort_of(mine)] += 1
        of_changed[sort_of(mine)] += number >= len(told)
        of_lifts[of_lift(text, mine)] += number >= len(told)
        if mine != hexds:
            differing += 1
            with tempfile.NamedTemporaryFile(prefix="differ-", suffix=".cert", delete=False) as file:
                file.write(text)
            print(f"the second checker says {mine!r}, hexd {hexds!r}: {file.name}")
    for said, often in sorted(answers.items()):
        print(f"{often:7,} {said}")
    print(f"of lines `lift`: {', '.join(f'{of_lifts[said]:,} {said}' for said in OF_LIFTS)}")
    missing = [why for why in REASONS if not of_changed[f"no LINE {why}"]]
    missing += [f"{said} of a lift" for said in OF_LIFTS if not of_lifts[said]]
    if missing and count >= MANY:
        print(f"never came of a changed certificate: {missing}")
    print(f"{answers.total():,} texts (seed {seed}), {differing} on which the two differ")
    return 1 if differing or missing and count >= MANY else 0


if __name__ == "__main__":
    sys.exit(main())
