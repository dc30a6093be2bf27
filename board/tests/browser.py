"""A headless Chromium, driven as a user drives it: by the pointer and by keys."""

import atexit
import contextlib
import os
import shutil
import stat
import tempfile
from pathlib import Path

from selenium import webdriver
from selenium.common.exceptions import StaleElementReferenceException
from selenium.webdriver.common.action_chains import ActionChains
from selenium.webdriver.common.by import By
from selenium.webdriver.common.keys import Keys
from selenium.webdriver.chrome.service import Service
from selenium.webdriver.support.ui import Select

from tests.palette import colours_at
from tests.support import LIMIT_SECONDS, dying, until

# Where Debian's packages put them, and else where the path finds them.
CHROMIUM = shutil.which("chromium") or "/usr/bin/chromium"
CHROMEDRIVER = shutil.which("chromedriver") or "/usr/bin/chromedriver"
ARGUMENTS = [
    "--headless=new",
    # Root may not use the sandbox, and a container's /dev/shm may be small.
    "--no-sandbox",
    "--disable-dev-shm-usage",
    "--disable-gpu",
    "--no-first-run",
    "--disable-background-networking",
    "--disable-component-update",
    "--force-color-profile=srgb",
    # Over a pipe Chromium ends when its driver does, however that comes.
    "--remote-debugging-pipe",
]
WIDE, LAPTOP, OLD, TABLET = (1440, 900), (1280, 680), (1024, 768), (820, 1180)
# What a browser leaves of a laptop's screen of 1,440 by 900.
USUAL = (1440, 757)
NARROW, LYING = (390, 844), (844, 390)
SMALL, SMALL_LYING = (360, 640), (640, 360)
PHONES = (NARROW, LYING, SMALL, SMALL_LYING)


class Browser:
    """One browser with a profile, a home and a folder of downloads of its own."""

    def __init__(self):
        self.folder = Path(tempfile.mkdtemp(prefix="hexd-browser-"))
        self.downloads = self.folder / "downloads"
        self.downloads.mkdir()
        # Chromedriver in words that end it when this process ends.
        starter = self.folder / "chromedriver"
        words = " ".join(f"'{word}'" for word in dying(CHROMEDRIVER))
        starter.write_text(f'#!/bin/sh\nexec {words} "$@"\n')
        starter.chmod(starter.stat().st_mode | stat.S_IXUSR)
        options = webdriver.ChromeOptions()
        options.binary_location = CHROMIUM
        for argument in [*ARGUMENTS, f"--user-data-dir={self.folder}/profile"]:
            options.add_argument(argument)
        options.add_experimental_option("prefs", {"download.default_directory": str(self.downloads)})
        options.set_capability("goog:loggingPrefs", {"browser": "ALL"})
        environment = {**os.environ, "HOME": str(self.folder), "DBUS_SESSION_BUS_ADDRESS": "disabled:"}
        try:
            service = Service(str(starter), log_path=str(self.folder / "log"), env=environment)
            self.driver = webdriver.Chrome(service=service, options=options)
        except BaseException:
            shutil.rmtree(self.folder, ignore_errors=True)
            raise
        atexit.register(self.end)
        self.driver.set_page_load_timeout(LIMIT_SECONDS)
        self.driver.set_script_timeout(LIMIT_SECONDS)

    def end(self):
        atexit.unregister(self.end)
        try:
            self.driver.quit()
        finally:
            shutil.rmtree(self.folder, ignore_errors=True)

    def window(self, size, dark=False):
        width, height = size
        metrics = {"width": width, "height": height, "deviceScaleFactor": 1, "mobile": size in PHONES}
        self.driver.execute_cdp_cmd("Emulation.setDeviceMetricsOverride", metrics)
        scheme = {"name": "prefers-color-scheme", "value": "dark" if dark else "light"}
        self.driver.execute_cdp_cmd("Emulation.setEmulatedMedia", {"features": [scheme]})

    def print_form(self, on):
        """Shows the page as it is printed, or as in the window again."""
        self.driver.execute_cdp_cmd("Emulation.setEmulatedMedia", {"media": "print" if on else ""})

    def open(self, address):
        # A change behind the # alone would not load the page again.
        self.driver.get("about:blank")
        self.driver.get(address)
        self.ready()

    def run(self, script, *values):
        return self.driver.execute_script(script, *values)

    def ready(self):
        """Waits until the page is drawn and nothing is under way in it."""
        done = "return document.body.dataset.ready === 'yes' && document.body.getAttribute('aria-busy') !== 'true'"
        until(lambda: self.run(done), "the page is at rest")

    def find(self, css):
        return self.driver.find_element(By.CSS_SELECTOR, css)

    def all(self, css):
        return self.driver.find_elements(By.CSS_SELECTOR, css)

    def vertices(self, css):
        """The cells of the board that are found."""
        return self.run("return [...document.querySelectorAll(arguments[0])].map(cell => cell.dataset.vertex)", css)

    def text(self, css):
        """The words in an element; it is looked for anew if it was drawn anew meanwhile."""
        while True:
            try:
                return self.find(css).text
            except StaleElementReferenceException:
                continue

    def counts(self, css):
        """Waits until a click counts: one on 'hexd moves' right after a move is taken for a late one on 'Stop' (wiring.js)."""
        if css == "#go":
            until(lambda: self.run("return performance.now() > play.ended + LATE"), "a click counts")

    def click(self, css):
        self.counts(css)
        element = self.find(css)
        with self.settings(css):
            self.run("arguments[0].scrollIntoView({block: 'nearest'})", element)
            element.click()
            self.ready()

    @contextlib.contextmanager
    def settings(self, css):
        """The settings are open meanwhile, if an element is one of them and isn't seen."""
        hidden = "const it = document.querySelector(arguments[0]); return Boolean(it.closest('#settings') && !it.checkVisibility())"
        is_hidden = self.run(hidden, css)
        if is_hidden:
            self.find("#set").click()
        yield
        if is_hidden:
            self.run("document.getElementById('settings').hidePopover()")

    def press(self, css):
        """A click after which the page may be at work for long."""
        self.counts(css)
        self.find(css).click()

    def place(self, css):
        """Where an element stands in the window."""
        return self.run("const {x, y} = document.querySelector(arguments[0]).getBoundingClientRect(); return [x, y]", css)

    def reload(self):
        self.driver.refresh()
        self.ready()

    def back(self):
        self.driver.back()
        self.ready()

    def forward(self):
        self.driver.forward()
        self.ready()

    def shift_tab(self):
        ActionChains(self.driver).key_down(Keys.SHIFT).send_keys(Keys.TAB).key_up(Keys.SHIFT).perform()

    def cell(self, vertex):
        self.click(f"[data-vertex='{vertex}']")

    def point(self, css):
        ActionChains(self.driver).move_to_element(self.find(css)).perform()

    def keys(self, *keys):
        ActionChains(self.driver).send_keys(*keys).perform()
        self.ready()

    def choose(self, css, value):
        with self.settings(css):
            Select(self.find(css)).select_by_value(value)
            self.ready()

    def saved(self, name):
        """The file of a download, once it is whole."""
        file = self.downloads / name
        # A place for the name may be there before what is saved.
        until(lambda: file.exists() and file.stat().st_size and not list(self.downloads.glob("*.crdownload")), f"{name} is saved")
        content = file.read_bytes()
        file.unlink()
        return content

    def shot(self, file):
        self.driver.save_screenshot(str(file))

    def sees_as(self, deficiency):
        """Shows the page as someone sees it who lacks something, as `deuteranopia`; or with `none`."""
        self.driver.execute_cdp_cmd("Emulation.setEmulatedVisionDeficiency", {"type": deficiency})

    def colours(self, selectors):
        """The colour that is seen in each element, below its middle: there are no words."""
        places = """return arguments[0].map(css => {
            const {left, top, width, height} = document.querySelector(css).getBoundingClientRect();
            return [left + width / 2, top + height * 0.82];
        });"""
        return colours_at(self.driver.get_screenshot_as_png(), self.run(places, selectors))

    def forget(self):
        """What the page has kept is not for the next one."""
        self.run("for (const store of ['localStorage', 'sessionStorage']) try { window[store].clear() } catch { continue }")

    def faults(self):
        """What the console says that is an error, since it was last asked."""
        return [entry for entry in self.driver.get_log("browser") if entry["level"] == "SEVERE"]
