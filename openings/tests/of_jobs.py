"""Tests openings/job and openings/gather: what they come to on one machine, by GNU parallel and by Slurm, and that
nobody who writes into their folder is believed."""

import contextlib
import lzma
import os
import shutil
import signal
import subprocess
import time
from pathlib import Path

import links
import tests.slurm as slurm
from find import INTERRUPTED
from jobs import CARRIER, REFUSED, certified_file, position_named, second_checker
from openings import ENDING, MOST_BYTES, text_of
from tests.support import FOLDER, expect, openings_check, run, skip

JOB, GATHER = FOLDER / "job", FOLDER / "gather"
TICK = 0.05
# More rounds of jobs than any opening here takes.
MOST_ROUNDS = 10


def gathered(folder, *names):
    """The status of openings/gather, the names of the jobs that are left, and its words."""
    return run(GATHER, folder, *names)


def done_jobs(folder, names, *words):
    """What openings/job says of each of these positions."""
    status, said, errors = run(JOB, *words, folder, *names)
    expect(status in (0, 1) and not errors, f"openings/job {words} {names}: status {status}, {errors}")
    return dict(line.split(": ", 1) for line in said)


def found(folder):
    """The names that have a certificate."""
    return {path.name.removesuffix(ENDING) for path in folder.glob("*" + ENDING)}


def expect_whole(folder, name, winner):
    """The opening has its certificate, which openings/check accepts, and no job is left."""
    status, left, said = gathered(folder, name)
    is_said = f"{name}: {winner} wins" in said[-1]
    expect((status, left) == (0, []) and is_said, f"gather {name}: {status}, {left}, {said}")
    status, said = openings_check(folder / f"{name}{ENDING}")
    expect(status == 0 and f"{winner} wins" in said[0], f"what gather made of {name}: {said}")


def expect_deep(folder):
    """Either winner, by jobs of the least budget: what isn't solved is split, and no position is listed twice."""
    look = "--look", "30"
    for name, winner, cells, way in (
        ("5-b2", "black", None, look),
        ("5-b2", "black", None, ["--best"]),
        ("4-d2", "white", "b3", look),
        ("4-d2", "white", "a1,b3", ["--best"]),
    ):
        place, splits = folder / f"{name}-{cells}-{way[0]}", 0
        if cells:
            expect(done_jobs(place, [name], "--cells", cells) == {name: "is split"}, f"{name} isn't split by {cells}")
        for _ in range(MOST_ROUNDS):
            if not (left := gathered(place, name)[1]):
                break
            orders = [str(position_named(job).in_order()) for job in left]
            expect(len(set(orders)) == len(left), f"{name}: listed twice: {left}")
            said = done_jobs(place, left, "--budget", "1", *way)
            splits += sum("split by" in words for words in said.values())
        expect_whole(place, name, winner)
        expect(splits > 0 or winner == "white", f"{name}: no position was split by {way}")


def expect_orders():
    """The same stones have one name for files, with the opening first."""
    names = "5-a3-d3-b4-b5-c4", "5-a3-b5-b4-d3-c4", "5-a3-d3-c4-b5-b4", "5-a3-b5-c4-d3-b4"
    orders = {str(position_named(name).in_order()) for name in names}
    expect(orders == {"5-a3-d3-b4-b5-c4"}, f"the same stones in several orders: {orders}")
    wrong = "5", "5-", "5-f1", "5-a6", "12-a1", "5-a1-a1", "05-a1", "5-a1-", "5-A1"
    expect(not any(map(position_named, wrong)), f"one of these names a position: {wrong}")


def expect_ends(folder):
    """Who is joined has won: `hexd solve` has no certificate of that, and the line `done` is one."""
    said = done_jobs(folder, ["2-a1-b1-a2", "2-a1-b1-a2", "2-a2-b1-b2-a1"])
    want = {"2-a1-b1-a2": "is there", "2-a2-b1-b2-a1": "white wins, 7 lines"}
    expect({name: words.split(";")[0] for name, words in said.items()} == want, f"positions that are over: {said}")


def expect_words(folder):
    """Wrong words, and a program that can't be used, are told in one line."""
    file = folder / "file"
    file.write_text("")
    for words, status in (
        ([JOB, folder, "5-a6"], 2),
        ([JOB, folder, "5-a1", "a1"], 2),
        ([JOB, "--cells", "b2,a1", folder, "5-a1"], 2),
        ([JOB, "--cells", "b9", folder, "5-a1"], 2),
        ([JOB, file, "3-a1"], 1),
        ([GATHER], 2),
        ([GATHER, folder], 2),
        ([GATHER, folder, "5-a1", "5"], 2),
        ([GATHER, file, "3-a1"], 3),
    ):
        ended, said, errors = run(*words)
        seen = (ended, said, len(errors))
        expect(seen == (status, [], 1), f"{[str(word) for word in words]}: {seen}, {errors}")
    for words, status in (([JOB, folder, "3-a1-b2"], 1), ([GATHER, folder, "3-a1"], 3)):
        ended, said, errors = run(*words, env={**os.environ, "HEXD": "/dev/null"})
        expect((ended, said, len(errors)) == (status, [], 1), f"{words} without hexd: {ended}, {said}, {errors}")
    expect(found(folder) == set(), f"wrong words made {found(folder)}")


def cut(text):
    """A certificate without its last derivation line."""
    lines = text.split(b"\n")
    return b"\n".join(lines[:-3] + lines[-2:])


# Why a lie is refused.
LIES = "another head", "hexd check says", "can't be read"


def lie(texts, at):
    """The bytes of a file that doesn't prove what the text with this number does: each of the three ways by turns."""
    return (lzma.compress(texts[at - 1]), lzma.compress(cut(texts[at])), b"")[at % len(LIES)]


def expect_refused(folder, said, job, why):
    """A job's file is refused for this reason, and is out of the way."""
    path = folder / f"{job}{ENDING}"
    is_aside = not path.exists() and path.with_name(path.name + REFUSED).exists()
    is_told = any(line.startswith(f"{path.name} is refused: ") and why in line for line in said)
    expect(is_aside and is_told, f"a lie about {job}, {why}: {said}")


def expect_no_trust(folder):
    """Every worker lies, by another position's certificate, a cut text or an empty file: each lie is told, and each job
    done again. So are those that a false carrier left out."""
    name = "4-c2"
    jobs = gathered(folder, name)[1]
    done_jobs(folder, jobs)
    honest = sorted(found(folder))
    expect(len(honest) >= len(LIES), f"{name} has too few jobs for the lies: {honest}")
    texts = [text_of(folder / f"{job}{ENDING}") for job in honest]
    for at, job in enumerate(honest):
        (folder / f"{job}{ENDING}").write_bytes(lie(texts, at))
    status, left, said = gathered(folder, name)
    expect((status, left) == (1, jobs), f"after the lies: status {status}, {left}")
    for at, job in enumerate(honest):
        expect_refused(folder, said, job, LIES[at % len(LIES)])
    (folder / f"{honest[0]}{ENDING}").write_bytes(lzma.compress(bytes(MOST_BYTES + 1), preset=0))
    expect_refused(folder, gathered(folder, name)[2], honest[0], "has more than")
    first, second = honest[:2]
    expect("wins" in done_jobs(folder, [first])[first], f"{first} isn't done again")
    (folder / f"{first}{CARRIER}").write_text("black\n")
    expect("is answered" in done_jobs(folder, [second])[second], "a carrier without cells doesn't answer each move")
    said = done_jobs(folder, gathered(folder, name)[1])
    expect(any("wins" in words for words in said.values()), f"a false carrier stays: {said}")
    expect_whole(folder, name, "black")
    (folder / f"{name}{ENDING}").write_bytes(lzma.compress(texts[0]))
    status, left, said = gathered(folder, name)
    expect((status, left) == (0, []), f"after a false whole: status {status}, {left}")
    expect("is refused: has another head" in said[0], f"a false whole isn't told: {said}")


def expect_version_4(folder):
    """Lines `lift` keep what they name, in a text of version 4; so has a text of more lines than others may have."""
    name = "3-a2"
    done_jobs(folder, gathered(folder, name)[1])
    position = position_named(sorted(found(folder))[0])
    path = folder / f"{position}{ENDING}"
    proofs = [certified_file(folder, position_named(job)) for job in found(folder)]
    proof = links.Found(folder, position_named(name), proofs).proof_of(position_named(name))
    least = links.linked(folder, proof).split(b"\n")[0]
    most, links.MOST_LINES = links.MOST_LINES, {"2": 9, "3": 9, "4": 1_000_000}
    many = links.linked(folder, proof)
    links.MOST_LINES = most
    expect(least in (b"hexcert 2", b"hexcert 3") and many.startswith(b"hexcert 4\n"), f"versions: {least}, {many[:10]}")
    expect(second_checker.answer(many) == "yes full", "so many lines that version 4 has them aren't accepted")
    _, *lines, claim = text_of(path).decode().splitlines()
    kind, number = claim.split()
    count = len(lines) - 4
    lifted = ["hexcert 4", *lines, "put", f"lift {number}", f"{kind} {count + 1}", ""]
    path.write_bytes(lzma.compress("\n".join(lifted).encode()))
    expect_whole(folder, name, "black")
    text = text_of(folder / f"{name}{ENDING}")
    expect(text.startswith(b"hexcert 4\n") and text.count(b"\nlift ") == 1, f"a line lift is linked as {text}")


def members(session):
    """The processes of a session, as long as they run."""
    for path in Path("/proc").glob("[0-9]*/stat"):
        try:
            state, _, _, of = path.read_text().rpartition(")")[2].split()[:4]
        except OSError:
            continue
        if int(of) == session and state != "Z":
            yield int(path.parent.name)


def kill_session(process):
    """Ends a process and all that it began, at once and without a word, as a machine that fails does."""
    while running := list(members(process.pid)):
        for one in running:
            try:
                os.kill(one, signal.SIGKILL)
            except ProcessLookupError:
                pass
    process.wait()


def stamps(folder):
    return {path: path.stat().st_mtime_ns for path in folder.glob("*" + ENDING)}


def expect_parallel(folder):
    """An opening of 6 by 6 by two workers under GNU parallel. Killed in the middle and started again by the same
    command, it goes on: no file is made twice, and none is missing."""
    if not shutil.which("parallel"):
        return skip("jobs of openings under parallel", "GNU parallel")
    place, list_, log = folder / "jobs", folder / "list", folder / "log"
    list_.write_text("".join(f"{job}\n" for job in gathered(place, "6-e2")[1]))
    command = ["parallel", "--will-cite", "--sshlogin", "2/:", "--joblog", log, "--resume", "-a", list_, JOB, place]
    pipe = subprocess.PIPE
    process = subprocess.Popen(command, stdout=pipe, stderr=subprocess.DEVNULL, text=True, start_new_session=True)
    while len(found(place)) < 3 and process.poll() is None:
        time.sleep(TICK)
    kill_session(process)
    before = stamps(place)
    expect(process.returncode == -signal.SIGKILL, f"parallel ended before it was killed, with {process.returncode}")
    status, said, errors = run(*command)
    expect(status == 0, f"parallel, started again: status {status}, {errors}")
    made = {line.split(":")[0] for line in said if " wins, " in line}
    had = {path.name.removesuffix(ENDING) for path in before}
    expect(before.items() <= stamps(place).items() and not made & had, f"made twice: {made & had}")
    expect(found(place) == made | had and len(had) < len(found(place)), f"{found(place)} of {made} and {had}")
    expect_whole(place, "6-e2", "black")
    return None


def expect_slurm(folder):
    """The same opening as an array of tasks of a real Slurm, two at a time."""
    if not slurm.is_there():
        return skip("jobs of openings under Slurm", "slurm-wlm")
    place, list_ = folder / "jobs", folder / "list"
    jobs = gathered(place, "6-e2")[1]
    list_.write_text("".join(f"{job}\n" for job in jobs))
    task = f"'{JOB}' '{place}' $(sed -n ${{SLURM_ARRAY_TASK_ID}}p '{list_}')"
    words = ["--wait", f"--array=1-{len(jobs)}", "--output", folder / "said", "--open-mode=append", "--wrap", task]
    (folder / "slurm").mkdir()
    with slurm.slurm(folder / "slurm", 2) as env:
        status, _, errors = run("sbatch", *words, env=env)
    said = (folder / "said").read_text().splitlines() if (folder / "said").exists() else []
    told = sorted(line.split(":")[0] for line in said)
    expect(status == 0 and told == sorted(jobs), f"sbatch: status {status}, {said}, {errors}")
    expect_whole(place, "6-e2", "black")
    return None


def children(process):
    """The processes that a process has begun, with the words of each."""
    for number in Path(f"/proc/{process.pid}/task/{process.pid}/children").read_text().split():
        # It may have ended.
        with contextlib.suppress(OSError):
            yield int(number), Path(f"/proc/{number}/cmdline").read_bytes().split(b"\0")


def is_search(words):
    """Whether these words are those of hexd itself, and no longer of its launcher, or of what has it end with its parent."""
    return b"solve" in words and not words[0].endswith((b"bash", b"setpriv"))


def expect_ended_search(folder):
    """A job that a scheduler ends, by TERM, ends its search too, and leaves no part of a file."""
    process = subprocess.Popen([JOB, folder, "7-a4"], stdout=subprocess.PIPE, stderr=subprocess.PIPE, text=True)
    while not (searches := [number for number, words in children(process) if is_search(words)]):
        time.sleep(TICK)
    process.terminate()
    said = process.communicate()
    expect((process.returncode, said) == (INTERRUPTED, ("", "")), f"a job after TERM: {process.returncode}, {said}")
    expect(not any(map(is_running, searches)), "a job after TERM leaves its search")
    expect(list(folder.iterdir()) == [], f"a job after TERM leaves {list(folder.iterdir())}")


def expect_needless_search(folder):
    """A search ends once another worker has what it looks for."""
    process = subprocess.Popen([JOB, folder, "7-a4"], stdout=subprocess.PIPE, stderr=subprocess.PIPE, text=True)
    while not (searches := [number for number, words in children(process) if is_search(words)]):
        time.sleep(TICK)
    shutil.copy(FOLDER / f"7-d4{ENDING}", folder / f"7-a4{ENDING}")
    said, errors = process.communicate()
    fits = process.returncode == 0 and said.startswith("7-a4: is there; ") and not any(map(is_running, searches))
    expect(fits, f"a needless search: status {process.returncode}, {said}, {errors}")


def is_running(number):
    try:
        return Path(f"/proc/{number}/stat").read_text().rpartition(")")[2].split()[0] != "Z"
    except OSError:
        return False


TRIALS = (
    expect_deep,
    expect_ends,
    expect_words,
    expect_no_trust,
    expect_version_4,
    expect_ended_search,
    expect_needless_search,
    expect_parallel,
    expect_slurm,
)
