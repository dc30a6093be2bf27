#!/usr/bin/env python3
"""What the checkers have to refuse, and find.py has to find: openings/test.py says nothing if they do.

Of each certificate of sizes 3 to 5, these are refused by `hexd check` and by tools/second_checker.py alike: two lines
swapped of which one names the other, the other player, the other claim, and the last derivation line cut off; of
those of size 3 also each other line cut off. With lines `lift` those of sizes 3 and 4 are accepted, and White's
answer stays. openings/check refuses each file of size 3 under the names of the other openings, a true certificate
with a claim that is not the opening's, a file with a byte changed, and an opening that is missing. find.py makes size
3 anew, openings/check accepts what it makes, and a second start finds nothing left to do; a budget that is too small
leaves an opening open; after Ctrl-C there is no part of a file. The rows that it adds are those that README.md's
tables are made of. positions.py comes to the same number from any other. middle.py counts what it decides.
even.tsv has what even.py makes of openings.tsv, and openings that may be near even beyond.
tests/of_jobs.py has the tests of openings/job and openings/gather, and tests/of_ends.py those of how all of these end.

HEXD names the program; if it isn't set that is bin/hexd.
"""

import os
import shutil
import signal
import subprocess
import sys
import tempfile
from pathlib import Path

from even import HEAD as EVEN_HEAD, LARGEST_PROVED, SIZES, black_wins, looked_rows, proved_rows, worth
from openings import ENDING, FOLDER, MEASURED, listed, opening_named, text_of

sys.path[:0] = [str(FOLDER.parent / "tools"), str(FOLDER.parent / "examples")]
import second_checker
import tests.of_ends as of_ends
import tests.of_jobs as of_jobs
from programs import checked
from tests.support import expect, faults, openings_check, run
from winning_move import winning_move

HEAD = 5
# After b2 and b1 Black is joined with the first row, and with the last one by b3 or a3.
BLACK_TO_MOVE = """hexcert 2
size 3
player black
black b2
white
put b1
adj b2 b3
adj edge2 b3
key 1 2
adj b2 a3
adj edge2 a3
key 4 5
or 3 6
put
move b1 7
semi 9
"""


def expect_refused(text, what):
    """Both checkers say no, and the same."""
    (hexds, status), mine = checked(text.encode()), second_checker.answer(text.encode())
    expect(hexds == mine, f"{what}: hexd check says {hexds!r}, the second checker {mine!r}")
    expect(status == 1 and mine.startswith("no"), f"{what}: {hexds!r} with status {status}")


def swapped(lines):
    """The last derivation line, in the place of the last line that it names."""
    last = len(lines) - 2
    named = HEAD + max(int(word) for word in lines[last].split(" ") if word.isdigit())
    result = list(lines)
    result[last], result[named] = lines[named], lines[last]
    return result


def wrong_certificates(opening, winner, lines):
    """Each with what is wrong of it. The lines are those of the text, with nothing after the last."""
    other = "white" if winner == "black" else "black"
    kind, entry = lines[-1].split(" ")
    yield "two lines swapped", swapped(lines)
    yield "another player", [*lines[:2], f"player {other}", *lines[3:]]
    yield "another claim", [*lines[:-1], f"{'semi' if kind == 'full' else 'full'} {entry}"]
    cuts = range(HEAD, len(lines) - 1) if opening.size == 3 else [len(lines) - 2]
    for cut in cuts:
        yield f"line {cut - HEAD} cut off", lines[:cut] + lines[cut + 1:]


def expect_refusals():
    for opening, entry in listed().items():
        if opening.size > 5:
            continue
        lines = text_of(FOLDER / f"{opening}{ENDING}").decode().removesuffix("\n").split("\n")
        for what, wrong in wrong_certificates(opening, entry.winner, lines):
            expect_refused("\n".join(wrong) + "\n", f"{opening} with {what}")


def lifted(lines):
    """The lines of a certificate, each of whose entries is taken as a line `lift` in its own scope gives it."""
    result, numbers = ["hexcert 4", *lines[1:HEAD]], []
    for line in lines[HEAD:]:
        words = (str(numbers[int(word)]) if word.isdigit() else word for word in line.split(" "))
        result.append(" ".join(words))
        if not line.startswith(("put", "full", "semi")):
            result.append(f"lift {len(result) - 1 - HEAD}")
        numbers.append(len(result) - 1 - HEAD)
    return result


def expect_lifts():
    """With lines `lift` a certificate is accepted as without, and its winning move is the same."""
    for opening, entry in listed().items():
        if opening.size > 4:
            continue
        text = "\n".join([*lifted(text_of(FOLDER / f"{opening}{ENDING}").decode().splitlines()), ""])
        said = checked(text.encode()), second_checker.answer(text.encode()), winning_move(text) or "-"
        want = (f"yes {entry.claim}", 0), f"yes {entry.claim}", entry.answer
        expect(said == want, f"{opening} with lines lift: {said}")


def expect_even():
    """What is proved of even.tsv is what even.py makes; the rest has an opening that each colour won, in each row another one."""
    head, *rows = [tuple(line.split("\t")) for line in (FOLDER / "even.tsv").read_text().splitlines()]
    proved = [tuple(map(str, row)) for size in SIZES if size <= LARGEST_PROVED for row in proved_rows(size)]
    looked = rows[len(proved) :]
    expect(head == EVEN_HEAD and rows[: len(proved)] == proved, f"even.tsv has of what is proved {rows[: len(proved)]}")
    expect({int(row[0]) for row in looked} == {size for size in SIZES if size > LARGEST_PROVED}, f"even.tsv has beyond {looked}")
    names = [opening_named(f"{size}-{moves}") for size, moves, *_ in rows]
    expect(None not in names and len(set(names)) == len(rows), f"even.tsv has the openings {names}")
    for size, moves, winner, lines, value, black, games in looked:
        is_even = 0 < int(black) < int(games) and abs(int(value) - 500) < 100
        expect(winner == lines == "-" and is_even, f"even.tsv: {size}-{moves}, {value}, {black} of {games}")
    # On small boards connections decide, and so what a game comes to is proved.
    for name in ("4-d1", "4-a1"):
        opening = opening_named(name)
        wins = listed()[opening].winner == "black"
        expect((worth(opening), black_wins(opening, 20)) == (1000 * (not wins), wins), f"a game from {name}: {worth(opening)}")
    expect(looked_rows(3) == [], "a row for an opening that is decided")


def expect_other_names(folder):
    """Each certificate of size 3 is refused under each other name, even if the same player wins that opening."""
    small = [opening for opening in listed() if opening.size == 3]
    for opening in small:
        place = folder / str(opening)
        place.mkdir()
        for other in small:
            if other != opening:
                shutil.copy(FOLDER / f"{opening}{ENDING}", place / f"{other}{ENDING}")
        status, said = openings_check(*sorted(place.iterdir()))
        expect(status == 1 and said[-1] == f"0 accepted, {len(small) - 1} refused", f"{opening} renamed: {said}")


def expect_other_claim(folder):
    """That Black wins with himself to move is true and no proof of the opening."""
    path = folder / "3-b2.cert"
    path.write_text(BLACK_TO_MOVE)
    expect(second_checker.answer(BLACK_TO_MOVE.encode()) == "yes semi", "Black to move is not accepted")
    named = subprocess.run([second_checker.__file__, path], capture_output=True, text=True, stdin=subprocess.DEVNULL)
    expect((named.returncode, named.stdout) == (1, ""), f"a file by its name has a verdict: {named.stdout}")
    status, said = openings_check(path)
    expect(status == 1 and said[-1] == "0 accepted, 1 refused", f"Black to move, as a proof of 3-b2: {said}")


def expect_whole_files(folder):
    """A file of the list that is missing, and one with a byte changed."""
    copied = folder / "openings"
    copied.mkdir()
    for path in [FOLDER / "check", *FOLDER.glob("*.py"), *FOLDER.glob("*.tsv"), *FOLDER.glob("3-*")]:
        shutil.copy(path, copied)
    for name in ("tools", "board"):
        (folder / name).symlink_to(FOLDER.parent / name)
    packed = bytearray((copied / f"3-a1{ENDING}").read_bytes())
    packed[len(packed) // 2] ^= 1
    (copied / f"3-a1{ENDING}").write_bytes(packed)
    (copied / f"3-b2{ENDING}").unlink()
    status, said = openings_check("3", folder=copied)
    expect(status == 1 and said[-1] == "3 accepted, 2 refused", f"a changed byte and a missing file: {said}")


def expect_other_statuses():
    """What can't be checked at all is distinguished from what is refused, in one line."""
    for words, program, status in ((["9"], None, 2), (["3"], "/dev/null", 3), (["3"], "/bin/true", 3)):
        env = {**os.environ, **({"HEXD": program} if program else {})}
        done = subprocess.run([FOLDER / "check", *words], capture_output=True, text=True, env=env)
        got = (done.returncode, done.stdout, len(done.stderr.splitlines()))
        expect(got == (status, "", 1), f"openings/check {words} with {program}: {got}, {done.stderr}")


def find(*words):
    """The status of find.py, and its lines."""
    done = subprocess.run([FOLDER / "find.py", *words], capture_output=True, text=True)
    return done.returncode, done.stdout.splitlines() + done.stderr.splitlines()


def expect_found(folder):
    """Size 3 is found anew; what is found is accepted, and found once. Each has its row."""
    for lines in (5, 0):
        status, said = find("--out", folder, "3")
        expect(status == 0 and len(said) == lines, f"find.py 3: status {status}, {said}")
    status, said = openings_check(*folder.glob("*" + ENDING))
    expect(status == 0 and said[-1] == "5 accepted", f"what find.py made: {said}")
    status, said = find("--out", folder, "--again", "--whole", "3")
    expect(status == 0 and len(said) == 9, f"find.py --whole 3: status {status}, {said}")
    rows = [line.split("\t") for line in (folder / MEASURED.name).read_text().splitlines()]
    expect(len(rows) == 14 and {len(row) for row in rows} == {5}, f"the rows of find.py: {rows}")
    done = subprocess.run([FOLDER / "find.py", "--out", FOLDER / "find.py", "3-a1"], capture_output=True, text=True)
    seen = (done.returncode, done.stdout, done.stderr.splitlines())
    want = (1, "", [f"openings/find.py: {FOLDER / 'find.py'} can't be written: File exists"])
    expect(seen == want, f"find.py to a file in place of a folder: {seen}")
    status, said = find("--out", folder, "--budget", "1", "7-b3")
    expect(status == 1 and len(said) == 1 and "unknown 1;" in said[0], f"find.py with a small budget: {status}, {said}")
    words = [FOLDER / "find.py", "--out", folder, "--again", "3-a1"]
    done = subprocess.run(words, capture_output=True, text=True, env={**os.environ, "HEXD": "/dev/null"})
    seen = (done.returncode, done.stdout, len(done.stderr.splitlines()))
    expect(seen == (1, "", 1), f"find.py without hexd: {seen}, {done.stderr}")


def expect_names():
    """Which word names no opening is said, in a line."""
    for words, status, why in (
        (["12"], 1, "'12' is no opening, as 6-a3, and no size, 1 to 11"),
        (["3-a1", "5-z9"], 1, "'5-z9' is no opening, as 6-a3, and no size, 1 to 11"),
        (["5-a6"], 1, "'5-a6' is no opening, as 6-a3, and no size, 1 to 11"),
        ([], 1, "no opening is named (--help has the words)"),
        (["--list", "0"], 2, "argument --list: invalid choice: 0"),
        (["--list", "12"], 2, "argument --list: invalid choice: 12"),
    ):
        done = subprocess.run([FOLDER / "find.py", *words], capture_output=True, text=True)
        last = done.stderr.splitlines()[-1] if done.stderr else ""
        expect((done.returncode, done.stdout, why in last) == (status, "", True), f"find.py {words}: {done}")
    said = run(FOLDER / "positions.py", "zz")
    want = (1, [], ["openings/positions.py: 'zz' is no opening, as 6-a3, and no size, 1 to 11"])
    expect(said == want, f"positions.py zz: {said}")


def expect_positions(folder):
    """The least budget that is enough: from nothing, from a right number and from wrong ones, an odd one among them."""
    out = folder / "positions.tsv"
    for guess in ("", "4-d1\t3\n", "4-d1\t2\n", "4-d1\t40\n"):
        out.write_text(guess)
        done = subprocess.run([FOLDER / "positions.py", "--out", out, "4-d1"], capture_output=True, text=True)
        seen = (done.returncode, done.stdout, out.read_text())
        expect(seen == (0, "4-d1\t3\n", "4-d1\t3\n"), f"positions.py from {guess!r}: {seen}")


def expect_middle():
    """One position decides nothing; the last line counts."""
    done = subprocess.run([FOLDER / "middle.py", "--budget", "1", "--first", "2"], capture_output=True, text=True)
    said = done.stdout.splitlines()
    fits = len(said) == 3 and said[1].startswith("2: unknown 1; ") and said[2] == "0 of 2 decided"
    expect(done.returncode == 0 and fits, f"middle.py: status {done.returncode}, {said}, {done.stderr!r}")


def expect_interrupted(folder):
    """After Ctrl-C it ends in order: what it had found is there, and no part of another file."""
    words = [FOLDER / "find.py", "--out", folder, "3-a1", "7-b3"]
    process = subprocess.Popen(words, stdout=subprocess.PIPE, stderr=subprocess.PIPE, text=True)
    first = process.stdout.readline()
    process.send_signal(signal.SIGINT)
    rest, errors = process.communicate()
    fits = first.startswith("3-a1: white wins") and rest == "" and "Traceback" not in errors
    expect(fits, f"find.py after Ctrl-C: {first!r}, {rest!r}, {errors!r}")
    expect(process.returncode == 130, f"find.py after Ctrl-C: status {process.returncode}")
    names = sorted(path.name for path in folder.iterdir())
    expect(names == [f"3-a1{ENDING}", MEASURED.name], f"find.py after Ctrl-C: {names}")


def expect_interrupted_check():
    """After Ctrl-C, which its workers get too, openings/check ends without a word."""
    words = [FOLDER / "check", "3", "4", "5", "6"]
    process = subprocess.Popen(words, stdout=subprocess.PIPE, stderr=subprocess.PIPE, text=True, start_new_session=True)
    process.stdout.readline()
    os.killpg(process.pid, signal.SIGINT)
    rest, errors = process.communicate()
    fits = (process.returncode, errors) == (130, "") and "accepted" not in rest
    expect(fits, f"openings/check after Ctrl-C: status {process.returncode}, {rest[-200:]}, {errors}")


def main():
    expect_refusals()
    expect_lifts()
    expect_other_statuses()
    expect_interrupted_check()
    expect_middle()
    expect_names()
    expect_even()
    of_jobs.expect_orders()
    of_ends.expect_no_reader()
    trials = expect_other_names, expect_other_claim, expect_whole_files, expect_found, expect_positions, expect_interrupted
    for trial in (*trials, *of_jobs.TRIALS, *of_ends.TRIALS):
        with tempfile.TemporaryDirectory() as folder:
            trial(Path(folder))
    for fault in faults:
        print(f"openings/test.py: {fault}")
    return 1 if faults else 0


if __name__ == "__main__":
    sys.exit(main())
