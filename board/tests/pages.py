"""What the tests of the page share: one server and one browser for all of them, and words for what they look at."""

import time
import unittest
from datetime import date
from pathlib import Path

from selenium.webdriver.common.keys import Keys

from tests.browser import WIDE, Browser
from tests.support import LIMIT_SECONDS, Server

shared = {}


class Pages(unittest.TestCase):
    """After each test the browser's console has no error."""

    shots = None

    @classmethod
    def setUpClass(cls):
        if not shared:
            shared.update(server=Server(), browser=Browser())
        cls.server, cls.browser = shared["server"], shared["browser"]

    def setUp(self):
        self.browser.window(WIDE)

    def tearDown(self):
        self.browser.forget()
        self.assertEqual([], self.browser.faults())

    def start(self, link="", players=("I", "I"), server=None):
        """Opens the page with a game."""
        browser, address = self.browser, (server or self.server).address
        browser.open(f"{address}#{link}" if link else address)
        # First those that keep hexd from moving.
        for player, colour in sorted(zip(players, "bw")):
            if browser.find(f"#player-{colour}").get_attribute("value") != player:
                browser.choose(f"#player-{colour}", player)
        return browser

    def soon(self, expected, what):
        """That a function's value is this one, now or once the page has come so far."""
        end, got = time.monotonic() + LIMIT_SECONDS, what()
        while got != expected and time.monotonic() < end:
            time.sleep(0.05)
            got = what()
        self.assertEqual(expected, got)

    def soon_in(self, text, css):
        self.soon(True, lambda: text in self.browser.text(css))

    def marks(self, css):
        return lambda: len(self.browser.all(css))

    def words(self, css):
        return lambda: self.browser.text(css)

    def link(self):
        return self.browser.run("return location.hash.slice(1)")

    def line(self):
        """The moves of the whole line, as the link has them."""
        return [part for part in self.link().split(",")[1:] if not part.startswith(("@", "+"))]

    def moves(self):
        """The moves up to the position that is shown."""
        parts, line = self.link().split(","), self.line()
        return line[: int(parts[-1][1:])] if parts[-1].startswith("@") else line

    def carrier(self):
        return set(self.browser.vertices("[data-vertex]:has(.carrier)"))

    def enter(self, text):
        """Puts a text into the box for links, and Enter. The focus stays in it, or the page would write its own link there."""
        self.browser.find("#link").send_keys(Keys.CONTROL, "a", Keys.NULL, text, Keys.ENTER)
        self.browser.ready()

    def opened(self, record, name="opened.sgf"):
        """Opens a record's bytes by the page's own button."""
        file = self.browser.folder / name
        file.write_bytes(record)
        self.browser.find("#open").send_keys(str(file))

    def saved_record(self):
        """The record that the page has saved, under a name with the day."""
        return self.browser.saved(f"hexd-{date.today()}.sgf")

    def shot(self, name):
        if self.shots is not None:
            self.browser.shot(Path(self.shots) / f"{name}.png")

    def fits(self):
        """Whether there is no scroll bar across."""
        widths = "return [document.documentElement, document.body].map(element => element.scrollWidth).concat(innerWidth)"
        document, body, window = self.browser.run(widths)
        return max(document, body) <= window
