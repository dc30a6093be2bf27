"""A headless Firefox, driven over its own protocol (Marionette), for which no driver has to be installed."""

import json
import shutil
import socket
import subprocess
import tempfile
import time
from pathlib import Path

FIREFOX = shutil.which("firefox-esr") or shutil.which("firefox")
LIMIT_SECONDS = 300
PREFERENCES = {"marionette.port": 0, "datareporting.policy.dataSubmissionEnabled": False}


class Firefox:
    """One browser with a profile of its own. It has what the tests of the module use of a driver."""

    def __init__(self):
        self.folder = Path(tempfile.mkdtemp(prefix="hexd-firefox-"))
        lines = [f"user_pref({json.dumps(name)}, {json.dumps(value)});\n" for name, value in PREFERENCES.items()]
        (self.folder / "user.js").write_text("".join(lines))
        words = [FIREFOX, "--headless", "--no-remote", "--marionette", "--profile", str(self.folder), "about:blank"]
        streams = dict.fromkeys(("stdin", "stdout", "stderr"), subprocess.DEVNULL)
        self.process = subprocess.Popen(words, **streams)
        self.number = 0
        try:
            self.socket = self.connected()
            self.read()
            self.command("WebDriver:NewSession", {"strictFileInteractability": False})
            self.command("WebDriver:SetTimeouts", {"script": 1000 * LIMIT_SECONDS, "pageLoad": 1000 * LIMIT_SECONDS})
        except BaseException:
            self.end()
            raise
        self.driver = self

    def connected(self):
        """A connection to the port that Firefox writes into its profile once it listens."""
        end = time.monotonic() + LIMIT_SECONDS
        while time.monotonic() < end and self.process.poll() is None:
            try:
                port = int((self.folder / "MarionetteActivePort").read_text())
                return socket.create_connection(("127.0.0.1", port), LIMIT_SECONDS)
            except (OSError, ValueError):
                time.sleep(0.1)
        raise OSError("Firefox does not listen")

    def read(self):
        """One message: the number of its bytes, a colon, and JSON."""
        digits = b""
        while not digits.endswith(b":"):
            digits += self.socket.recv(1) or b":"
        content = b""
        while len(content) < int(digits[:-1]):
            content += self.socket.recv(int(digits[:-1]) - len(content))
        return json.loads(content)

    def command(self, name, values):
        self.number += 1
        content = json.dumps([0, self.number, name, values]).encode()
        self.socket.sendall(b"%d:%s" % (len(content), content))
        _, _, fault, result = self.read()
        if fault:
            raise AssertionError(f"{name}: {fault['message']}")
        return result.get("value") if isinstance(result, dict) else result

    def open(self, address):
        self.command("WebDriver:Navigate", {"url": "about:blank"})
        self.command("WebDriver:Navigate", {"url": address})
        end = time.monotonic() + LIMIT_SECONDS
        while not self.run("return document.body.dataset.ready === 'yes'") and time.monotonic() < end:
            time.sleep(0.05)

    def run(self, script, *values):
        return self.command("WebDriver:ExecuteScript", {"script": script, "args": list(values), "sandbox": None})

    def execute_async_script(self, script, *values):
        return self.command("WebDriver:ExecuteAsyncScript", {"script": script, "args": list(values), "sandbox": None})

    def end(self):
        self.process.terminate()
        self.process.wait()
        shutil.rmtree(self.folder, ignore_errors=True)
