#!/usr/bin/env python3
"""Measures hexd.html in a headless Chromium beside the built program, in turns: speed.py [--runs N] [--page FILE]

It prints a table for a page of the documents: seconds of the clock, medians of N runs (7 if it isn't said), and the most
memory that a run in the page has had. It needs what test.py needs, and a machine without other work; FILE is as there.
"""

import argparse
import lzma
import statistics
import subprocess
import tempfile
import time
from pathlib import Path

import test
from test import PROGRAM, ROOT

import settings

# 20 stones on the largest board, and ten plans for the next move; and a move after the first 12 by the strength *normal*.
CELLS = "f6 e8 i3 d7 c9 b7 h8 j5 g2 d3 i9 f9 j8 b4 e2 h4 c5 k7 a10 g11".split()
STONES = [f"play {'bw'[at % 2]} {cell}\n" for at, cell in enumerate(CELLS)]
PLANS = "".join(STONES) + 10 * "genmove b\nundo\n"
MOVE = "".join(STONES[:12]) + "genmove b\n"
NORMAL = " ".join(["htp", *(f"--{name} {value}" for name, value in settings.strength_options("normal", 11).items())])
LARGE = "6-f3"
RUN = """
    const [words, input, done] = arguments, run = async () => {
      window.module ??= await WebAssembly.compile(await packedIn('hexd'));
      const begun = performance.now(), {memory} = await ran(window.module, {words, pieces: [input], file: null});
      return [(performance.now() - begun) / 1000, memory / 1e6];
    };
    run().then(done, fault => done(String(fault)));"""


def rows():
    """What is run: its name, words and input."""
    large = lzma.decompress((ROOT / "openings" / f"{LARGE}.cert.xz").read_bytes())
    lines = f"{large.count(bytes([10])):,}"
    yield "`bench --size 11 --playouts 100000`, one worker", "bench --size 11 --playouts 100000", b""
    yield "ten plans with 20 stones on size 11", "htp --playouts 1", PLANS.encode()
    yield "a move of *normal* with 12 stones on size 11", NORMAL, MOVE.encode()
    yield f"`check` of {LARGE}, {lines} lines", "check", large
    yield "`htp` without input", "htp", b""


def of_program(words, given):
    """Seconds of one run of the built program."""
    begun = time.perf_counter()
    subprocess.run([PROGRAM, *words.split()], input=given, stdout=subprocess.DEVNULL, check=True)
    return time.perf_counter() - begun


def loads(browser, file, count):
    """Milliseconds until one can play, from the begin of the load."""
    found = []
    for _ in range(count):
        browser.driver.get("about:blank")
        browser.driver.get(file.as_uri())
        browser.ready()
        found.append(browser.run("return performance.now()"))
    return statistics.median(found)


def measure(browser, count):
    print("| run | seconds of the program | of the page | its MB |\n|---|---|---|---|")
    for name, words, given in rows():
        runs = []
        for _ in range(count):
            native = of_program(words, given)
            runs.append((native, *browser.driver.execute_async_script(RUN, words.split(), given.decode("latin-1"))))
        natives, in_page, megabytes = zip(*runs)
        seconds = " | ".join(f"{statistics.median(side):.3f}" for side in (natives, in_page))
        print(f"| {name} | {seconds} | {max(megabytes):.0f} |", flush=True)


def main():
    parser = argparse.ArgumentParser(prog="web/speed.py")
    parser.add_argument("--runs", type=int, default=7, metavar="N")
    parser.add_argument("--page", type=Path, metavar="FILE")
    options = parser.parse_args()
    from tests.browser import Browser

    with tempfile.TemporaryDirectory() as folder:
        file, driven = test.pages(options, Path(folder))
        browser = Browser()
        browser.driver.set_script_timeout(test.CALL_SECONDS)
        browser.open(driven.as_uri())
        measure(browser, options.runs)
        print(f"\nThe page can be played on {loads(browser, file, options.runs):.0f} ms after its load begins.")


if __name__ == "__main__":
    test.become_system_python()
    main()
