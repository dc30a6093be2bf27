#!/usr/bin/env python3
"""Tests the board: its server over the socket, its page and its reports in a headless Chromium.

    test.py [--shots DIR] [--pictures DIR] [NAME..]

It says one line where all is right. `--shots` keeps a screenshot of each thing in a folder, `--pictures` makes those of the
documents; with names it runs the tests whose names have one of these in them. Chromium, its driver and Selenium are Debian's
packages chromium, chromium-driver and python3-selenium; without them what needs a browser is skipped, which it says.
"""

import argparse
import atexit
import importlib.util
import io
import os
import shutil
import signal
import subprocess
import sys
import tempfile
import unittest
from pathlib import Path

HERE = Path(__file__).resolve().parent
sys.path.insert(0, str(HERE))

# Debian's packages are for this Python, which need not be the first on the path.
SYSTEM_PYTHON = "/usr/bin/python3"
# Longer than any run takes; then something hangs.
LIMIT_SECONDS = 2_700


def missing():
    """What a test in a browser lacks, in words; or None."""
    if not shutil.which("chromium"):
        return "there is no chromium"
    if not shutil.which("chromedriver"):
        return "there is no chromedriver"
    if importlib.util.find_spec("selenium") is None:
        return "there is no selenium for Python"
    return None


def become_system_python():
    """Starts anew under the system's Python where that one has Selenium and this one hasn't."""
    if importlib.util.find_spec("selenium") or os.path.realpath(sys.executable) == os.path.realpath(SYSTEM_PYTHON):
        return
    has = [SYSTEM_PYTHON, "-c", "import selenium"]
    if os.path.exists(SYSTEM_PYTHON) and subprocess.run(has, stdin=subprocess.DEVNULL, capture_output=True).returncode == 0:
        os.execv(SYSTEM_PYTHON, [SYSTEM_PYTHON, *sys.argv])


def open_standard_streams():
    """Where a standard stream is closed, a pipe or a socket would take its number."""
    for number in (0, 1, 2):
        try:
            os.fstat(number)
        except OSError:
            os.open(os.devnull, os.O_RDWR)


def tests(options):
    """The cases, and what is skipped and why."""
    from tests import of_client, of_conversion, of_ends, of_puzzlelist, of_report, of_server, of_settings, of_solve

    loader, why = unittest.TestLoader(), missing()
    plain = (of_server, of_ends, of_client, of_conversion, of_puzzlelist, of_settings, of_solve)
    suites = [loader.loadTestsFromModule(module) for module in plain]
    suites.append(loader.loadTestsFromTestCase(of_report.Reports))
    if why is None:
        from tests import of_choices, of_games, of_hands, of_puzzles, of_records, of_sittings, of_thoughts, of_windows, pages

        pages.Pages.shots = options.shots
        modules = (of_games, of_hands, of_choices, of_thoughts, of_puzzles, of_records, of_sittings, of_windows)
        suites += [loader.loadTestsFromModule(module) for module in modules]
        suites.append(loader.loadTestsFromTestCase(of_report.in_browser(options.shots)))
    return unittest.TestSuite(chosen(suites, options.names)), why


def chosen(suite, names):
    for test in suite:
        if isinstance(test, unittest.TestCase):
            if not names or any(name in test.id() for name in names):
                yield test
        else:
            yield unittest.TestSuite(chosen(test, names))


def end_by_signal(number, _):
    # unittest goes on after any other exception of a test. What was started ends with this process (tests/support.py).
    raise KeyboardInterrupt(number)


def options_of(words):
    parser = argparse.ArgumentParser(prog="board/test.py")
    parser.add_argument("--shots", type=Path, metavar="DIR")
    parser.add_argument("--pictures", type=Path, metavar="DIR")
    parser.add_argument("names", nargs="*", metavar="NAME")
    options = parser.parse_args(words)
    for folder in filter(None, (options.shots, options.pictures)):
        folder.mkdir(parents=True, exist_ok=True)
    return options


def failed(result):
    """The names in full of the tests that failed."""
    return [test.id() for test, _ in result.failures + result.errors]


def passed_again(names, options):
    """Whether the tests of these names pass at a second try. A browser on a busy machine may be late once, but not twice."""
    again, _ = tests(argparse.Namespace(**{**vars(options), "names": names}))
    result = unittest.TextTestRunner(stream=io.StringIO()).run(again)
    return result.wasSuccessful() and result.testsRun == len(names)


def run(options):
    """Runs what is asked for, and gives the status."""
    if options.pictures:
        from tests import pictures

        pictures.make(options.pictures)
        return 0
    suite, why = tests(options)
    told = io.StringIO()
    try:
        result = unittest.TextTestRunner(stream=told, verbosity=2).run(suite)
        late = failed(result)
        is_passed = not late or passed_again(late, options)
    except KeyboardInterrupt as ended:
        print(f"{told.getvalue()}board/test.py: ended by a signal", file=sys.stderr)
        return 128 + (ended.args[0] if ended.args else signal.SIGINT)
    if why:
        print(f"board/test.py: skipped, for {why}: what needs a browser", file=sys.stderr)
    if not is_passed:
        print(told.getvalue(), file=sys.stderr)
        return 1
    for test, why in result.failures + result.errors:
        print(f"board/test.py: passed at the second try alone: {test.id()}\n{why}", file=sys.stderr)
    print(f"board/test.py: {result.testsRun} tests passed", file=sys.stderr)
    return 0


def main():
    open_standard_streams()
    become_system_python()
    options = options_of(sys.argv[1:])
    for number in (signal.SIGTERM, signal.SIGHUP, signal.SIGINT, signal.SIGALRM):
        signal.signal(number, end_by_signal)
    signal.alarm(LIMIT_SECONDS)
    # All that is written lies here, also what a killed server leaves.
    folder = tempfile.mkdtemp(prefix="hexd-tests-")
    atexit.register(shutil.rmtree, folder, ignore_errors=True)
    os.environ["TMPDIR"] = tempfile.tempdir = os.environ["XDG_STATE_HOME"] = folder
    return run(options)


if __name__ == "__main__":
    sys.exit(main())
