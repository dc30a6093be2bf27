#!/usr/bin/env python3
"""Keeps the certificates of a session as files: reads what `hexd htp` answers, and writes each answer that is a certificate.

    printf 'genmove b\\nwincert\\n' | bin/hexd htp --size 2 | examples/keep_certificates.py [FOLDER]

The files are FOLDER/1.cert, 2.cert and so on, by default in the current folder; none that is there is written over.
Each is named on standard output, with what `hexd check` says of it. It ends with 1 if one is refused or can't be written.
"""

import sys
from pathlib import Path

sys.path.append(str(Path(__file__).resolve().parent.parent / "board"))
from hexd import EngineEnded, check


def answers_of(lines):
    """The text of each answer that is a success: what stands after `=`, the id and a space, up to the empty line."""
    answer = []
    for line in lines:
        if line != "\n":
            answer.append(line)
            continue
        if answer and answer[0].startswith("="):
            yield "".join([answer[0].partition(" ")[2], *answer[1:]])
        answer = []


def free_names(folder):
    """The names of files that are not there, by rising numbers."""
    number = 0
    while number := number + 1:
        path = folder / f"{number}.cert"
        if not path.exists():
            yield path


def keep(lines, folder):
    """Keeps each certificate; whether all are accepted."""
    names, good = free_names(folder), True
    for text in answers_of(lines):
        if text.startswith("hexcert "):
            path = next(names)
            path.write_text(text)
            said = check(text.encode())
            print(f"{path}: {said}", flush=True)
            good = good and said.startswith("yes")
    return good


def main():
    if len(sys.argv) > 2 or sys.argv[1:] in (["--help"], ["-h"]):
        print(__doc__, end="")
        return 0 if len(sys.argv) == 2 else 2
    try:
        return 0 if keep(sys.stdin, Path(*sys.argv[1:])) else 1
    except (EngineEnded, OSError) as why:
        print(f"keep_certificates.py: {why}", file=sys.stderr)
        return 1


if __name__ == "__main__":
    sys.exit(main())
