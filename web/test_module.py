#!/usr/bin/env python3
"""Tests hexd.mjs in Node, and in a page and a worker of a headless Chromium: runs by it are those of the built program, and its
sessions answer and end as they have to. It says nothing if all is right, but for what is skipped."""

import http.server
import json
import os
import shutil
import subprocess
import sys
import tempfile
import threading
from pathlib import Path

HERE = Path(__file__).resolve().parent
ROOT = HERE.parent
sys.path[:0] = [str(HERE), str(ROOT / "board")]
# What the runs are compared with, for the other tests here too.
PROGRAM = os.environ.get("HEXD") or subprocess.check_output([ROOT / "bin/start", "--where", "hexd"], text=True).strip()
os.environ["HEXD"] = PROGRAM

from cases import cases, native
from test import become_system_python, missing

LIMIT = 600
# Sessions, openings and the largest board that is solved; and of how many runs one is made in each place of a browser.
CASES, IN_BROWSER = (8, 2, 3), 8
IN_NODE = """import {tried} from %s;
import {readFileSync} from 'node:fs';
console.log(JSON.stringify(await tried(%s, JSON.parse(readFileSync(0, 'utf8')))));"""
IN_PAGE = b"<script type='module'>import {tried} from './tried.mjs'; window.tried = tried</script>"
IN_WORKER = b"import {tried} from './tried.mjs'; onmessage = async ({data}) => postMessage(await tried('hexd.wasm', data));"
FILES = {"hexd.mjs", "tried.mjs", "worker.js"}
# What who is in a page calls, and what a worker of it is sent.
CALLS = {
    "a page": "until(() => window.tried).then(() => tried('hexd.wasm', arguments[0])).then(done, fault => done(String(fault)))",
    "a worker": """const worker = new Worker('in_worker.mjs', {type: 'module'});
        worker.onmessage = ({data}) => done(data); worker.onerror = ({message}) => done(String(message));
        worker.postMessage(arguments[0])""",
}
UNTIL = """const done = arguments[1], until = async is => { while (!is()) await new Promise(then => setTimeout(then, 20)); };"""
SESSION = {
    "answers": [
        {"done": True, "text": ""},
        {"done": True, "text": "hexd"},
        {"done": True, "text": "(;FF[4]GM[11]SZ[3];B[b2])"},
        {"done": False, "text": "unknown command"},
        {"done": True, "text": ""},
        {"done": True, "text": "none"},
        {"done": True, "text": ""},
    ],
    "refused": ["TypeError: hexd doesn't answer 'a\nb' once", "TypeError: hexd doesn't answer ' # nothing' once"],
    "end": [0, "", ""],
    "after": "Error: hexd ended with status 0",
    "closed": "it was closed",
}


def told(case):
    file = None if case.file is None else case.file.decode("latin-1")
    return {"words": list(case.words), "input": case.input.decode("latin-1"), "file": file}


def faults_of(place, found, some, folder):
    """What differs in what was found of these cases."""
    if isinstance(found, str):
        yield f"in {place}: {found}"
        return
    for case, run in zip(some, found["runs"], strict=True):
        out, errors, status = native(PROGRAM, case, folder)
        want = {"status": status, "text": out.decode(), "errors": errors.decode()}
        if run != want:
            yield f"in {place}, {case.words}: {run} in place of {want}"
    if found["session"] != SESSION:
        yield f"in {place}, a session: {found['session']}"


def in_node(some, wasm):
    script = IN_NODE % (json.dumps((HERE / "tried.mjs").as_uri()), json.dumps(str(wasm)))
    words = ["node", "--input-type=module", "-e", script]
    ran = subprocess.run(words, input=json.dumps(list(map(told, some))), capture_output=True, text=True, timeout=LIMIT)
    return json.loads(ran.stdout) if ran.returncode == 0 and not ran.stderr else f"{ran.returncode}, {ran.stderr}"


def host(wasm):
    """A server of what a page needs."""

    class Handler(http.server.BaseHTTPRequestHandler):
        def do_GET(self):
            name = self.path.removeprefix("/")
            made = {"": IN_PAGE, "in_worker.mjs": IN_WORKER, "hexd.wasm": wasm.read_bytes()}
            content = (HERE / name).read_bytes() if name in FILES else made.get(name)
            self.send_response(404 if content is None else 200)
            self.send_header("Content-Type", "text/javascript" if name.endswith(("js", "mjs")) else "text/html")
            self.end_headers()
            self.wfile.write(content or b"")

        def log_message(self, *_):
            pass

    server = http.server.ThreadingHTTPServer(("127.0.0.1", 0), Handler)
    threading.Thread(target=server.serve_forever, daemon=True).start()
    return server


def in_browser(some, wasm):
    """What is found in each place of a browser."""
    from tests.browser import Browser

    server, browser = host(wasm), Browser()
    browser.driver.set_script_timeout(LIMIT)
    try:
        browser.driver.get(f"http://127.0.0.1:{server.server_port}/")
        for place, call in CALLS.items():
            yield place, browser.driver.execute_async_script(f"{UNTIL} {call}", list(map(told, some)))
    finally:
        browser.end()
        server.shutdown()


def faults(folder):
    wasm, some = folder / "hexd.wasm", cases(PROGRAM, folder, *CASES)
    made = subprocess.run(["make", "-s", "-C", ROOT, "wasm", f"OUT={wasm}"], capture_output=True, text=True)
    if made.returncode:
        yield made.stderr
        return
    if shutil.which("node"):
        yield from faults_of("Node", in_node(some, wasm), some, folder)
    else:
        print("web/test_module.py: skipped: hexd.mjs in Node, for there is no nodejs", file=sys.stderr)
    if why := missing():
        print(f"web/test_module.py: skipped: hexd.mjs in a browser, for {why}", file=sys.stderr)
        return
    few = some[::IN_BROWSER]
    for place, found in in_browser(few, wasm):
        yield from faults_of(place, found, few, folder)


def refused_faults(folder):
    """What is no page with hexd in it."""
    for text, why in (("a page", "has no module of hexd"), (None, "No such file")):
        path = folder / "a page.html"
        path.unlink(missing_ok=True)
        if text:
            path.write_text(text)
        ran = subprocess.run([HERE / "module.py", path, folder / "x.wasm"], capture_output=True, text=True)
        if ran.returncode != 1 or why not in ran.stderr or len(ran.stderr.splitlines()) != 1 or (folder / "x.wasm").exists():
            yield f"the module of {text!r}: {ran.returncode}, {ran.stderr}"


def main():
    become_system_python()
    with tempfile.TemporaryDirectory(prefix="hexd-module-") as folder:
        found = [*refused_faults(Path(folder)), *faults(Path(folder))]
    for fault in found:
        print(f"web/test_module.py: {fault}")
    return 1 if found else 0


if __name__ == "__main__":
    sys.exit(main())
