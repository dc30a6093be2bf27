"""A long sitting: games, comments and clocks that one leaves and finds again, and what one does while hexd is at work."""

import os
import signal

from selenium.webdriver.common.action_chains import ActionChains
from selenium.webdriver.common.keys import Keys

from tests.browser import OLD, SMALL, TABLET, USUAL
from tests.of_choices import TIMED, TIMES
from tests.pages import Pages
from tests.support import until

# hexd's searches don't come to an end until one lets them.
WAITING = """
    const think = play.game.think.bind(play.game);
    window.held = new Promise(goOn => { window.goOn = goOn; });
    window.searches = 0;
    play.game.think = async position => { searches++; await held; return think(position); };"""
COMMENTS = "return play.game.tree.positions.map(it => it.comment)"
FOCUS = "return document.activeElement.textContent"
# Windows that are half a screen, and a page that is zoomed much.
HALVES, ZOOMED = ((683, 650), (600, 560)), ((427, 240), (320, 256))


class Sittings(Pages):
    def typed(self, *keys):
        """Keys, without waiting for the page."""
        ActionChains(self.browser.driver).send_keys(*keys).perform()

    def at_work(self, link="5,c3,b3", players=("I", "I")):
        """The page, with a search begun by 'hexd moves' that goes on."""
        browser = self.start(link, players)
        browser.run(WAITING)
        browser.press("#go")
        until(lambda: browser.run("return searches") == 1, "the search has begun")
        return browser

    def go_on(self):
        self.browser.run("goOn()")
        self.browser.ready()

    def test_an_empty_game_hands_nothing_on(self):
        """What hexd said of an empty board isn't said of another one that took its place."""
        browser = self.start("3")
        browser.click("#hint")
        self.assertTrue(browser.run("return Boolean(play.game.at.thought)"))
        browser.choose("#size", "11")
        browser.reload()
        self.soon(121, self.marks("[data-vertex]"))
        self.assertFalse(browser.run("return Boolean(play.game.at.thought)"))

    def test_a_game_is_saved_without_hexd(self):
        """And a comment is kept that is written while it is lost."""
        browser = self.start("5,c3,b3")
        for pid in self.server.engines():
            os.kill(pid, signal.SIGKILL)
        browser.cell("a1")
        self.soon_in("hexd was ended", "#alert")
        browser.faults()
        browser.click("#write")
        self.typed("lost", Keys.ESCAPE)
        browser.click("#save")
        self.assertIn(b"W[b3]C[lost]", self.saved_record())
        browser.click("#again")
        self.soon("lost", self.words("#record .comment"))

    def test_a_comment_while_hexd_moves(self):
        """The box stays, its keys are its own, and what is written is there after a reload."""
        browser = self.at_work()
        browser.find("#write").click()
        self.typed("one u")
        self.go_on()
        self.soon(3, lambda: len(self.moves()))
        self.typed("ual")
        self.assertTrue(browser.find("#comment").is_displayed())
        self.assertEqual(["", "", "one uual", ""], browser.run(COMMENTS))
        browser.reload()
        self.assertEqual(["", "", "one uual", ""], browser.run(COMMENTS))

    def test_a_click_that_leaves_a_comment(self):
        browser = self.start("5,c3,b3,d2")
        browser.click("#write")
        self.typed("a note")
        button = browser.find("#moves li:nth-child(1) button")
        ActionChains(browser.driver).move_to_element(button).click_and_hold().pause(0.1).release().perform()
        self.soon(["c3"], self.moves)
        self.assertEqual("a note", browser.run(COMMENTS)[3])

    def test_games_ahead_are_found_again(self):
        """A new game that is begun behind Back takes no game's place."""
        browser = self.start("5,a1")
        for link in ("5,b1", "5,c1"):
            self.enter(link)
            self.soon(link, self.link)
        browser.back()
        browser.back()
        self.soon("5,a1", self.link)
        self.enter("5,d1")
        found = []
        for _ in range(3):
            browser.back()
            found.append(self.link())
        self.assertEqual(["5,c1", "5,b1", "5,a1"], found)

    def test_a_game_whose_moves_were_deleted_is_no_empty_one(self):
        browser = self.start("5,c3,b3,d2")
        browser.click("#moves li:nth-child(1) .move")
        browser.click("#cut")
        self.soon("5", self.link)
        browser.click("#new")
        browser.back()
        browser.click("#restore")
        self.soon(["c3", "b3", "d2"], self.line)

    def test_a_side_line_leaves_the_result(self):
        browser = self.start()
        self.opened(b"(;SZ[4]RE[W+R];B[b2];W[c3];B[a1])")
        self.soon(1, self.marks("#record .result"))
        browser.click("#moves li:nth-child(1) .move")
        browser.cell("d4")
        self.soon(1, self.marks("#record .result"))
        browser.click("#moves .side")
        browser.click("#end")
        browser.cell("d1")
        self.soon(0, self.marks("#record .result"))

    def test_a_reload_keeps_the_side_line(self):
        """Also where one stands before it."""
        browser = self.start("5,c3,b3,d2")
        browser.click("#first")
        for cell in ("b4", "d2"):
            browser.cell(cell)
        browser.click("#first")
        self.soon("5,b4,d2,@0", self.link)
        browser.reload()
        self.soon("5,b4,d2,@0", self.link)

    def test_what_is_brought_back_keeps_both_comments(self):
        """If the move was played again meanwhile."""
        browser = self.start("5,c3,b3,d2")
        browser.click("#cut")
        browser.cell("d2")
        browser.click("#write")
        self.typed("again", Keys.ESCAPE)
        browser.click("#restore")
        self.soon(["c3", "b3", "d2"], self.line)
        self.assertIn("again", browser.run(COMMENTS))

    def test_the_record_names_who_played(self):
        browser = self.start("4", players=("I", "hexd"))
        browser.cell("b2")
        self.soon(2, lambda: len(self.moves()))
        browser.choose("#player-w", "I")
        browser.reload()
        browser.click("#save")
        self.assertIn(b"PB[Human]PW[hexd (200 playouts)]", self.saved_record())

    def test_a_clock_waits_for_its_game(self):
        browser = self.start("5")
        browser.run(TIMED, TIMES)
        browser.cell("c3")
        browser.run("wait(20)")
        browser.cell("b3")
        clocks = lambda: browser.run("return [...document.querySelectorAll('#clocks > span')].map(it => it.textContent)")  # noqa: E731
        self.assertEqual(["1:00", "0:45"], clocks())
        browser.click("#new")
        browser.run("wait(600)")
        browser.back()
        self.soon(["1:00", "0:45"], clocks)

    def test_one_search_at_a_time(self):
        """A second one that is asked for meanwhile is none; another click comes after it, which is said."""
        browser = self.at_work()
        for css in ("#hint", "#hint", "#prove", "#analyse"):
            browser.press(css)
            self.soon("hexd is at work: Stop ends it.", self.words("#said"))
        browser.press("#back")
        self.soon("hexd is at work: this comes once it is done. Stop ends it.", self.words("#said"))
        self.go_on()
        self.soon(3, lambda: len(self.line()))
        self.soon(2, lambda: len(self.moves()))
        self.assertEqual(1, browser.run("return searches"))

    def test_a_click_that_comes_as_hexd_has_moved(self):
        """One on 'Stop' that came late, or the second of a double one, lets nobody move: 'hexd moves' stands in its place."""
        browser = self.start("5,c3")
        browser.click("#go")
        self.soon(2, lambda: len(self.moves()))
        browser.run("play.ended = performance.now() + 60_000")
        browser.find("#go").click()
        browser.ready()
        self.soon(2, lambda: len(self.moves()))
        # A key has no place.
        browser.run("byId('go').focus()")
        browser.keys(Keys.ENTER)
        self.soon(3, lambda: len(self.moves()))

    def test_a_slip_ends_no_search(self):
        browser = self.at_work()
        browser.find("#link").send_keys(Keys.CONTROL, "a", Keys.NULL, "a3 zz", Keys.ENTER)
        self.soon_in("'zz' is no move", "#said")
        self.go_on()
        self.soon(3, lambda: len(self.moves()))

    def test_keys_of_a_number_box(self):
        browser = self.start("5,c3,b3,d2")
        browser.find("#set").click()
        browser.run("byId('timed').checked = true; byId('timed').dispatchEvent(new Event('change', {bubbles: true}))")
        browser.find("#minutes").click()
        self.typed(Keys.LEFT, "u", Keys.CONTROL, "z", Keys.NULL)
        browser.ready()
        self.soon("5,c3,b3,d2", self.link)

    def test_the_focus_stays_on_a_move(self):
        browser = self.start("5,c3,b3,d2")
        browser.run("document.querySelector('#moves li:nth-child(2) button').focus()")
        words = browser.run(FOCUS)
        browser.keys(Keys.ENTER)
        self.soon(["c3", "b3"], self.moves)
        self.assertEqual(words, browser.run(FOCUS))
        self.assertEqual("BUTTON", browser.run("return document.activeElement.tagName"))

    def test_a_page_that_is_brought_back_whole(self):
        """As browsers do on Back: it has a new session."""
        browser = self.start("5,c3")
        browser.run("dispatchEvent(new PageTransitionEvent('pagehide', {persisted: true}))")
        until(lambda: not self.server.engines(), "the session has ended")
        browser.run("dispatchEvent(new PageTransitionEvent('pageshow', {persisted: true}))")
        browser.ready()
        browser.cell("a1")
        self.soon(["c3", "a1"], self.moves)

    def test_few_games_stay_in_the_page(self):
        """The others are read again from the browser's history."""
        browser = self.start("5,a1")
        for cell in "bcdefg":
            self.enter(f"7,{cell}1")
        self.assertEqual(4, browser.run("return play.keeping.trees.size"))
        for _ in range(6):
            browser.back()
        self.soon("5,a1", self.link)
        self.soon(1, self.marks(".stone"))

    def test_the_board_of_a_small_window(self):
        """Of half a screen, and of a page that is zoomed much, it takes its part; on a phone the words stay beside clocks."""
        browser = self.start("11,f6")
        size = "const {width, height} = document.getElementById('board').getBoundingClientRect(); return Math.min(width, height)"
        for window, least in (*((it, 0.4) for it in (*HALVES, USUAL, OLD, TABLET)), *((it, 0.6) for it in ZOOMED)):
            with self.subTest(window=window):
                browser.window(window)
                self.assertGreater(browser.run(size), least * min(window))
        browser.window(SMALL)
        browser.run(TIMED, TIMES)
        browser.cell("a1")
        whole = "const it = document.getElementById('state'); return it.scrollWidth <= it.clientWidth + 1"
        self.soon(True, lambda: browser.run(whole))
