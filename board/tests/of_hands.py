"""What hands and screen readers have: names, what is announced, resigning, deleting a branch, and players of a tab alone."""

from selenium.webdriver.common.keys import Keys

from tests.pages import Pages

# The names of the buttons whose words alone don't tell what they do.
NAMES = {
    "first": "To the start", "back": "One move back", "forth": "One move on", "end": "To the end", "svg": "Save a picture as SVG",
    "png": "Save a picture as PNG", "copy": "Copy link", "copy-moves": "Copy moves", "copy-hexworld": "Copy a HexWorld link",
    "cut": "Delete from here", "player-b": "Who plays Black", "player-w": "Who plays White",
}


class Hands(Pages):
    def test_hexds_move_is_announced(self):
        browser = self.start("5,c3", players=("I", "hexd"))
        self.assertEqual("polite", browser.find("#spoken").get_attribute("aria-live"))
        self.assertEqual("", self.spoken())
        browser.click("#go")
        self.assertEqual(f"hexd plays White {self.moves()[1]}.", self.spoken())
        browser.cell("a1")
        self.assertEqual(f"hexd plays White {self.moves()[3]}.", self.spoken())
        # It is read, and not seen.
        self.assertLess(browser.run("return document.getElementById('spoken').offsetHeight"), 2)

    def spoken(self):
        return self.browser.find("#spoken").get_property("textContent")

    def test_names(self):
        browser = self.start("3,b2,a1")
        browser.find("#set").click()
        for name, words in NAMES.items():
            self.assertEqual(words, browser.find(f"#{name}").accessible_name)
        browser.keys(Keys.ESCAPE)
        self.assertEqual("Open link or moves", browser.find("#link-form [type=submit]").accessible_name)
        self.assertEqual(["Move 1: Black b2", "Move 2: White a1"], [it.accessible_name for it in browser.all("#moves .move")])
        for button in browser.all("button"):
            # What is seen is part of what is read.
            if button.is_displayed() and button.text.isascii() and button.text[:1].isalpha():
                self.assertIn(button.text.lower(), button.accessible_name.lower())

    def test_a_cell_without_visits_says_no_share(self):
        browser = self.start("5,b4,w-a2,a5")
        browser.run("""
            const thought = {mover: 'w', cell: 'a1', rows: [['a1', 1, 1], ['b1', 0, 0], ['c1', 3, 1]], playouts: 4, threats: []};
            play.game.at.thought = thought;
            play.draw()""")
        names = [browser.find(f"[data-vertex={vertex}]").get_attribute("aria-label") for vertex in ("a1", "b1", "c1", "d1")]
        want = ["a1, empty, 1 visit (25 %), 100 % of them won", "b1, empty", "c1, empty, 3 visits (75 %), 33 % of them won", "d1, empty"]
        self.assertEqual(want, names)

    def test_resign(self):
        browser = self.start("4,b2,c3,d1", players=("I", "I"))
        browser.click("#resign")
        self.soon("Black has won: White resigns.", self.words("#state"))
        self.assertFalse(browser.find("#resign").is_enabled())
        browser.reload()
        self.soon("Black has won: White resigns.", self.words("#state"))
        browser.click("#save")
        self.assertIn(b"W[resign]", self.saved_record())
        browser.click("#undo")
        self.soon("Your turn (White)", self.words("#state"))
        self.soon(["b2", "c3", "d1"], self.moves)
        browser.click("#back")
        self.assertFalse(browser.find("#resign").is_enabled())

    def test_resign_against_hexd(self):
        browser = self.start("4,b2,c3", players=("I", "hexd"))
        browser.click("#resign")
        self.soon("hexd has won (White): Black resigns.", self.words("#state"))
        browser.click("#undo")
        self.soon("Your turn (Black)", self.words("#state"))
        browser.choose("#player-w", "I")
        browser.cell("a1")
        browser.choose("#player-b", "hexd")
        browser.click("#back")
        browser.click("#cut")
        browser.choose("#player-b", "I")
        self.soon(["b2"], self.moves)

    def test_a_branch_is_deleted_and_brought_back(self):
        browser = self.start("5,c3,b3,d2,a1")
        browser.click("#moves li:nth-child(2) .move")
        browser.cell("e5")
        browser.cell("d4")
        self.soon("5,c3,b3,e5,d4", self.link)
        self.assertFalse(browser.find("#restore").is_displayed())
        browser.click("#moves [aria-label='Move 3: Black e5']")
        browser.click("#cut")
        self.soon("Black e5 and 1 move after it are deleted; 'Bring back' undoes that.", self.words("#said"))
        self.soon("5,c3,b3,d2,a1,@2", self.link)
        self.soon(0, self.marks("#moves .side"))
        self.soon("Bring back e5", self.words("#restore"))
        # What was deleted isn't in the record any more, and what is played in its place stays beside it.
        browser.click("#save")
        self.assertNotIn(b"e5", self.saved_record())
        browser.cell("e5")
        browser.cell("e4")
        browser.click("#restore")
        self.soon("5,c3,b3,e5,d4,@3", self.link)
        self.soon(2, self.marks("#moves .side"))
        self.assertFalse(browser.find("#restore").is_displayed())
        browser.click("#save")
        self.assertEqual(1, self.saved_record().count(b"e5"))
        for _ in range(3):
            browser.click("#cut")
        self.soon("5", self.link)
        self.assertFalse(browser.find("#cut").is_enabled())
        for _ in range(3):
            browser.click("#restore")
        self.soon("5,c3,b3,e5,d4,@3", self.link)
        browser.click("#new")
        self.assertFalse(browser.find("#restore").is_displayed())

    def test_what_was_deleted_lasts_over_a_reload(self):
        """Also a branch out of a branch, with what hexd said there; and it comes back in the order in which it went."""
        browser = self.start("5,c3,b3,d2,a1")
        browser.click("#hint")
        said = browser.text("#words")
        for _ in range(3):
            browser.click("#cut")
        self.soon("5,c3", self.link)
        browser.cell("e5")
        browser.reload()
        self.soon("Bring back b3", self.words("#restore"))
        for link in ("5,c3,b3,@2", "5,c3,b3,d2,@3", "5,c3,b3,d2,a1"):
            browser.click("#restore")
            self.soon(link.removesuffix(f",@{link.count(',') - 1}"), lambda: self.link().removesuffix(f",@{len(self.moves())}"))
        self.assertEqual(said, browser.text("#words"))
        self.soon(1, self.marks("#moves .side"))
        self.assertFalse(browser.find("#restore").is_displayed())

    def test_players_of_a_tab(self):
        """What another tab chooses makes hexd play on in no game of two people."""
        browser = self.start("4,b2", players=("I", "I"))
        first = browser.driver.current_window_handle
        browser.driver.switch_to.new_window("tab")
        second = browser.driver.current_window_handle
        try:
            browser.open(f"{self.server.address}#4,c3")
            self.assertEqual("hexd", browser.find("#player-w").get_attribute("value"))
            browser.choose("#player-b", "hexd")
            browser.driver.switch_to.window(first)
            browser.reload()
            browser.cell("c3")
            browser.reload()
            self.assertEqual(["I", "I"], [browser.find(f"#player-{it}").get_attribute("value") for it in "bw"])
            self.soon(["b2", "c3"], self.moves)
        finally:
            browser.driver.switch_to.window(second)
            browser.driver.close()
            browser.driver.switch_to.window(first)
