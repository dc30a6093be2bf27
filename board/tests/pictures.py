"""The pictures of the documents: screenshots of the page at work, small enough to be kept."""

import settings
from tests.browser import Browser
from tests.palette import small
from tests.support import Server

MOST_BYTES = 60_000
WINDOW = (1240, 760)
SEARCHED = "11,a10,f6,i4,d9,e8,g4,h2,f3"
CERTIFIED = "7,c3,d4,e3,d5,f4,d3,d2"


def search(browser, address):
    """A game in which hexd has moved and is asked once more, as strongly as it plays if nothing is said."""
    browser.open(f"{address}#{SEARCHED}")
    browser.choose("#player-w", "I")
    browser.choose("#strength", settings.TABLE["default"])
    for _ in range(4):
        browser.click("#go")
    browser.click("#hint")
    # How long it took is this machine's matter.
    browser.run("play.game.took = null; play.draw()")


def certificate(browser, address):
    """A certified win, with one line of its derivation drawn."""
    browser.open(f"{address}#{CERTIFIED}")
    browser.choose("#player-w", "I")
    for _ in range(20):
        browser.click("#go")
        if browser.find("#proof").is_displayed():
            break
    browser.click("#proof summary")
    lines = browser.all("#lines button")
    last = max(at for at, line in enumerate(lines, 1) if line.text.startswith("key"))
    browser.click(f"#lines li:nth-child({last}) button")
    browser.run("document.querySelector('#lines [aria-pressed=true]').scrollIntoView({block: 'center'})")


def make(folder):
    """Makes the pictures in a folder."""
    with Server("--playouts", "50000", "--weight", "0") as server:
        browser = Browser()
        try:
            browser.window(WINDOW)
            for name, show in (("search", search), ("certificate", certificate)):
                show(browser, server.address)
                # Nothing is pointed at.
                browser.point("#state")
                picture = small(browser.driver.get_screenshot_as_png())
                if len(picture) > MOST_BYTES:
                    raise AssertionError(f"{name} has {len(picture)} bytes, and may have {MOST_BYTES}")
                (folder / f"{name}.png").write_bytes(picture)
        finally:
            browser.end()
