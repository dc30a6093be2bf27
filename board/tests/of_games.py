"""Games on the page: by clicks and by keys, against hexd, and that none of them is lost."""

import os
import re
import resource
import signal
from pathlib import Path

from selenium.webdriver.common.action_chains import ActionChains
from selenium.webdriver.common.keys import Keys

import settings
from tests.pages import Pages
from tests.support import Server, until


class Games(Pages):
    def test_size_3_by_clicks(self):
        browser = self.start()
        browser.choose("#size", "3")
        self.soon(9, self.marks("[data-vertex]"))
        self.soon_in("Black joins row 1 and row 3, White joins column a and column c", "#words")
        self.soon("Your turn (Black)", self.words("#state"))
        colour = "return getComputedStyle(document.getElementById('status')).backgroundColor"
        before = browser.run(colour)
        for vertex in ("b2", "a1", "b1", "c3"):
            browser.cell(vertex)
        browser.cell("b1")
        self.soon("hexd: illegal move: there is a stone on it", self.words("#said"))
        self.assertTrue(self.is_beside("#said", "[data-vertex=b1]"))
        browser.cell("b3")
        self.soon("Black has won.", self.words("#state"))
        self.assertEqual("won", browser.find("#status").get_attribute("class"))
        self.assertNotEqual(before, browser.run(colour))
        self.assertEqual(3, len(browser.find(".chain").get_attribute("points").split()))
        self.assertIn("wanted", browser.find("#new").get_attribute("class"))
        self.soon(["b2", "a1", "b1", "c3", "b3"], self.moves)
        self.soon(3, self.marks(".stone.b"))
        self.soon(2, self.marks(".stone.w"))
        self.assertEqual("b3, Black, last move", browser.find("[data-vertex=b3]").get_attribute("aria-label"))
        self.shot("won")

    def is_beside(self, css, other):
        """Whether one element stands near another, which was clicked."""
        boxes = "return arguments[0].map(css => document.querySelector(css).getBoundingClientRect())"
        one, two = self.browser.run(boxes, [css, other])
        return abs(one["top"] - two["bottom"]) < 60 and one["left"] < two["right"] and two["left"] < one["right"]

    def test_size_11_by_clicks_and_keys_against_hexd(self):
        browser = self.start(players=("I", "hexd"))
        self.soon(121, self.marks("[data-vertex]"))
        for move in range(61):
            if browser.text("#state") != "Your turn (Black)":
                break
            vertex = browser.vertices("[data-vertex]:not(:has(.stone))")[0]
            self.play_by_keys(vertex) if move % 2 else browser.cell(vertex)
            self.assertIn(vertex, self.moves())
            if move == 3:
                self.shot("game")
        self.assertRegex(browser.text("#state"), "^(hexd has won .White.|You have won .Black.)")
        self.soon(len(self.moves()), self.marks("#moves li"))
        self.assertTrue(browser.all("#plot .mark"))
        self.shot("game-over")

    def play_by_keys(self, vertex):
        """From the cell that the Tab key reaches, by arrows and Enter."""
        browser = self.browser
        while not browser.run("return document.activeElement.dataset.vertex"):
            browser.run("if (document.activeElement === document.body) document.getElementById('new').focus()")
            browser.shift_tab()
        at = browser.run("return document.activeElement.dataset.vertex")
        columns, rows = ord(vertex[0]) - ord(at[0]), int(vertex[1:]) - int(at[1:])
        keys = [Keys.ARROW_RIGHT if columns > 0 else Keys.ARROW_LEFT] * abs(columns)
        keys += [Keys.ARROW_DOWN if rows > 0 else Keys.ARROW_UP] * abs(rows)
        if keys:
            browser.keys(*keys)
        self.assertTrue(browser.text("#readout").startswith(f"{vertex}, "), browser.text("#readout"))
        browser.keys(Keys.ENTER)

    def test_hexd_against_itself(self):
        browser = self.start("4", players=("hexd", "I"))
        browser.choose("#player-w", "hexd")
        until(lambda: "has won" in browser.text("#state"), "the game has ended")
        browser.ready()
        self.assertGreater(len(self.moves()), 3)

    def test_undo(self):
        browser = self.start("3", players=("I", "hexd"))
        browser.cell("a1")
        self.soon(2, lambda: len(self.moves()))
        browser.click("#undo")
        self.soon([], self.moves)
        self.soon(2, self.marks("#moves .ahead"))
        browser.choose("#player-w", "I")
        browser.cell("a2")
        browser.cell("b2")
        browser.click("#undo")
        self.soon(["a2"], self.moves)

    def test_swap(self):
        browser = self.start("3,a2")
        self.assertTrue(browser.find("#swap").is_displayed())
        browser.click("#swap")
        self.soon(["a2", "swap"], self.moves)
        self.assertEqual("b1, White, last move", browser.find("[data-vertex=b1]").get_attribute("aria-label"))
        self.assertFalse(browser.find("#swap").is_displayed())
        browser.click("#show-numbers")
        self.soon("2", self.words("[data-vertex=b1] .number"))
        browser.click("#undo")
        self.assertTrue(browser.find("#swap").is_displayed())


class Lasting(Pages):
    """No game is lost."""

    def test_to_a_position_and_back(self):
        browser = self.start("5,c3,b3,d2")
        browser.click("#moves li:nth-child(1) .move")
        self.soon("5,c3,b3,d2,@1", self.link)
        browser.click("#end")
        self.soon("5,c3,b3,d2", self.link)
        browser.cell("a1")
        # The middle of the plot of four moves.
        browser.click("#plot")
        self.soon(["c3", "b3"], self.moves)
        browser.click("#first")
        self.soon("5,c3,b3,d2,a1,@0", self.link)
        browser.click("#forth")
        browser.cell("b3")
        self.soon("5,c3,b3,d2,a1,@2", self.link)

    def test_a_reload_keeps_the_line_and_the_position(self):
        browser = self.start("5,c3,b3,d2,a1,@2")
        self.soon(["c3", "b3"], self.moves)
        browser.click("#back")
        browser.reload()
        self.soon("5,c3,b3,d2,a1,@1", self.link)
        self.soon(3, self.marks("#moves .ahead"))
        self.soon(1, self.marks(".stone"))

    def test_a_side_line_is_kept_and_reached(self):
        browser = self.start("5,c3,b3,d2,a1")
        browser.click("#moves li:nth-child(2) .move")
        browser.cell("e5")
        self.soon("5,c3,b3,e5", self.link)
        browser.cell("d4")
        self.soon(1, self.marks("#moves .side"))
        self.shot("side-line")
        # Of this record each line is left after a reload too.
        browser.reload()
        browser.click("#moves .side")
        self.soon("5,c3,b3,d2,a1,@3", self.link)
        browser.click("#moves .side")
        self.soon("5,c3,b3,e5,d4,@3", self.link)
        browser.click("#save")
        record = self.saved_record()
        self.assertEqual(b"(;FF[4]GM[11]SZ[5];B[c3];W[b3](;B[e5];W[d4])(;B[d2];W[a1]))\n", record)
        browser.click("#new")
        self.opened(record)
        # The line that was open is the first one, which each reader shows.
        self.soon("5,c3,b3,e5,d4", self.link)
        self.soon(1, self.marks("#moves .side"))

    def test_the_tree_of_moves(self):
        """Side lines stand below the move in whose place they were played, folded until one is on them; nothing changes places."""
        browser = self.start("5,c3,b3,d2,a1")
        browser.click("#moves li:nth-child(2) .move")
        for cell in ("e5", "d4", "e1"):
            browser.cell(cell)
        names = lambda of="button": [it.accessible_name for it in browser.all(f"#moves {of}")]  # noqa: E731
        words = lambda colours, *cells: [f"{colour} {cell}" for colour, cell in zip(colours, cells)]  # noqa: E731
        black, white = "Side line: Black d2", "Side line: White a1"
        self.assertEqual(["Move 1: Black c3", "Move 2: White b3", black, *(
            f"Move {number}: {it}" for number, it in enumerate(words(("Black", "White", "Black"), "e5", "d4", "e1"), 3)), white], names())
        self.assertEqual([black], names(".side"))
        self.assertEqual(3, len(browser.all("#moves .variation .move")))
        self.shot("tree")
        # Off it the side line is folded, and a button shows its other moves and hides them.
        browser.click("#moves .side")
        self.assertEqual(["Side line: Black e5"], names(".variation .side"))
        self.assertEqual(["Show 2 moves more"], names(".fold"))
        self.soon(0, self.marks("#moves .off"))
        browser.click("#moves .fold")
        self.soon(2, self.marks("#moves .off"))
        self.assertEqual(["Hide 2 moves more"], names(".fold"))
        browser.click("#moves .variation li:last-child .off")
        self.soon("5,c3,b3,e5,d4,e1", self.link)
        # A side line of a side line.
        browser.click("#back")
        browser.cell("b1")
        self.soon(2, self.marks("#moves .variation"))
        self.assertEqual("Move 5: Black b1", browser.find("#moves .variation .variation [aria-current]").accessible_name)

    def test_comments_are_written(self):
        browser = self.start("5,c3,b3")
        browser.click("#write")
        browser.keys("A comment ] of mine", Keys.ESCAPE)
        self.soon("A comment ] of mine", self.words("#record .comment"))
        self.assertFalse(browser.find("#comment").is_displayed())
        browser.click("#back")
        self.soon(0, self.marks("#record .comment"))
        self.assertEqual(["Move 2: White b3"], [it.accessible_name for it in browser.all("#moves .commented")])
        browser.reload()
        browser.click("#end")
        self.soon("A comment ] of mine", self.words("#record .comment"))
        browser.click("#save")
        self.assertIn(rb"W[b3]C[A comment \] of mine]", self.saved_record())
        browser.click("#write")
        # Keys are the box's.
        browser.keys(Keys.HOME, "u", Keys.ARROW_LEFT)
        browser.run("document.getElementById('comment').value = ''")
        browser.keys(" ")
        browser.click("#first")
        browser.click("#end")
        self.soon(0, self.marks("#record .comment"))
        self.soon(["c3", "b3"], self.moves)

    def test_a_reload_keeps_what_hexd_said(self):
        browser = self.start("4,d1,b3,a1")
        browser.click("#moves li:nth-child(2) .move")
        browser.cell("a4")
        browser.click("#hint")
        of_side_line = browser.text("#words")
        self.assertNotIn("said nothing yet", of_side_line)
        browser.click("#moves .side")
        browser.click("#analyse")
        self.soon(4, self.marks("#plot .mark"))
        browser.click("#moves li:nth-child(2) .move")
        browser.click("#prove")
        looks = lambda: (self.link(), self.marks("#plot .mark")(), self.marks("#plot .mark.proved")(), *map(browser.text, (  # noqa: E731
            "#words", "#claim", "#checked")), self.carrier(), browser.find("#plot").get_attribute("innerHTML"))
        before = looks()
        self.assertIn("Solved: Black wins by ", before[3])
        self.assertTrue(before[2] and before[4] and before[6])
        browser.reload()
        self.soon(before, looks)
        # A game that Back brings, and a side line, have it too.
        browser.click("#new")
        browser.reload()
        browser.back()
        self.soon(before, looks)
        browser.click("#forth")
        browser.click("#moves .side")
        # Now the move that led there is judged too.
        self.soon_in(of_side_line, "#words")
        # What was kept of a proof is one: it is followed.
        browser.click("#back")
        browser.cell(browser.vertices("[data-vertex]:has(.chosen)")[0])
        self.soon_in("certificate of move 3", "#words .proved")

    def test_an_analysis_that_is_stopped_is_kept(self):
        browser = self.start("11,f6,a1,b1,c1")
        browser.run("""
            const {game} = play, think = game.think.bind(game);
            game.think = position => {
              if (position.number === 2) byId('stop').click();
              return think(position);
            };""")
        browser.click("#analyse")
        self.browser.faults()
        self.soon(2, self.marks("#plot .mark"))
        browser.reload()
        self.soon(2, self.marks("#plot .mark"))

    def test_without_a_database(self):
        """As in some private windows: the page is the same but for what a reload finds."""
        browser = self.start("5,c3")
        browser.run("indexedDB.open = () => { throw new Error('a test'); }; play.keeping.store.opened = undefined")
        browser.click("#hint")
        self.soon_in("of 200 visits", "#words")
        browser.cell("a1")
        self.soon(["c3", "a1"], self.moves)

    def test_back_brings_the_game_before(self):
        browser = self.start("5,c3,b3,d2,@2")
        browser.click("#new")
        self.soon("5", self.link)
        browser.choose("#size", "4")
        browser.cell("a2")
        with browser.settings("#size"):
            browser.choose("#size", "6")
            self.soon("6", self.link)
            # A key on the box of sizes takes an empty game's place, and one before it is there still.
            browser.keys(Keys.ARROW_DOWN)
            self.soon("7", self.link)
        self.opened(b"(;GM[11]SZ[3];B[b2])")
        self.soon("3,b2", self.link)
        browser.back()
        # A game that was empty has left its place to the next one.
        self.soon("4,a2", self.link)
        browser.back()
        self.soon("5,c3,b3,d2,@2", self.link)
        self.soon(2, self.marks(".stone"))
        browser.click("#forth")
        self.soon(["c3", "b3", "d2"], self.moves)
        browser.forward()
        self.soon("4,a2", self.link)
        # A record that is opened, and moves from the box, take no game's place either.
        self.opened(b"(;GM[11]SZ[3];B[b2])")
        self.soon("3,b2", self.link)
        self.enter("5,e5")
        self.soon("5,e5", self.link)
        browser.back()
        self.soon("3,b2", self.link)
        # The record that was opened before lay ahead, and comes too.
        for link in ("3,b2", "4,a2"):
            browser.back()
            self.soon(link, self.link)

    def test_clicks_wait_their_turn(self):
        browser = self.start("6")
        browser.run("for (const id of ['b2', 'c3', 'd4', 'e5']) document.querySelector(`[data-vertex=${id}]`)"
                    ".dispatchEvent(new MouseEvent('click', {bubbles: true, detail: 1}))")
        self.soon(["b2", "c3", "d4", "e5"], self.moves)
        browser.ready()

    def test_the_bar_stays_where_it_is(self):
        browser = self.start("5," + ",".join(f"{column}{row}" for row in (1, 2, 4) for column in "abcde")[:-3])
        self.assertEqual(14, len(self.moves()))
        places = [browser.place("#back")]
        for _ in range(14):
            ActionChains(browser.driver).move_to_element(browser.find("#back")).click().perform()
            places.append(browser.place("#back"))
        browser.ready()
        self.soon([], self.moves)
        self.assertEqual(1, len({str(place) for place in places}))
        box = "return document.querySelector(arguments[0]).getBoundingClientRect().toJSON()"
        self.assertLessEqual(browser.run(box, "#board")["bottom"], browser.run(box, ".bar")["top"])

    def test_keys(self):
        browser = self.start("5,c3,b3,d2,a1")
        browser.cell("e5")
        left, right = Keys.ARROW_LEFT, Keys.ARROW_RIGHT
        for key, moves in ((left, 4), (left, 3), (right, 4), (Keys.HOME, 0), (Keys.END, 5), ("u", 4)):
            browser.keys(key)
            self.soon(moves, lambda: len(self.moves()))
        ActionChains(browser.driver).key_down(Keys.CONTROL).send_keys("z").key_up(Keys.CONTROL).perform()
        self.soon(3, lambda: len(self.moves()))
        browser.ready()

    def test_to_the_start_by_one_record(self):
        browser = self.start("5,c3,b3,d2,a1,e5,e4")
        browser.run("performance.clearResourceTimings()")
        browser.click("#first")
        self.soon([], self.moves)
        names = browser.run("return performance.getEntriesByType('resource').map(entry => entry.name.split('/').at(-1))")
        self.assertEqual(["record", "htp", "htp"], names)

    def test_choices_last_over_a_reload(self):
        browser = self.start("5,c3", players=("hexd", "I"))
        browser.choose("#strength", "quick")
        browser.click("#show-visits")
        browser.choose("#orientation", "flipped")
        browser.cell("a1")
        browser.choose("#player-b", "I")
        self.soon(3, lambda: len(self.moves()))
        browser.reload()
        value = lambda css: lambda: browser.find(css).get_attribute("value")  # noqa: E731
        self.soon("I", value("#player-w"))
        self.soon("quick", value("#strength"))
        self.soon("flipped", value("#orientation"))
        self.assertFalse(browser.find("#show-visits").is_selected())
        self.assertIn("look-ahead of 50 nodes, 1,000 playouts", browser.text("#strength-words"))

    def test_strengths(self):
        """Each strength has the options of settings.json, also by the size of the board, and its process has them."""
        # Positions that no strength decides: what is proved is not searched.
        browser = self.start("8,a1,h8")
        options = [(option.get_attribute("value"), option.get_property("textContent")) for option in browser.all("#strength option")]
        want = [("started", "as started (200 playouts)"), ("quick", "quick"), ("normal", "normal"), ("strong", "strong")]
        want += [(f"clock-{seconds}", f"{seconds} second{'s' * (seconds > 1)} a move") for seconds in (1, 5, 15, 60)]
        self.assertEqual(want, options)
        for name, size in (("quick", 8), ("normal", 8), ("strong", 8), ("quick", 6)):
            if size != 8:
                browser = self.start(f"{size},a6")
            browser.choose("#strength", name)
            options = settings.strength_options(name, size)
            table = settings.TABLE["strengths"][name]
            self.assertEqual(table["solve"]["6"] if size == 6 else table["solve"].get("10", table["solve"]["11"]), options["solve"])
            self.assertEqual(table["look"] if name == "quick" else table["look"]["9"], options["look"])
            self.soon_in(f"look-ahead of {options['look']:,} nodes", "#strength-words")
            browser.press("#hint")
            wanted = {f"--{option}={value}" for option, value in options.items()}
            until(lambda: [wanted <= words for words in self.words_of_engines()] == [True], f"there is one process with {wanted}")
            # The others' searches are longer, and tell nothing more.
            browser.run("if (arguments[0] !== 'quick') play.stop()", name)
            browser.ready()
            if name == "quick":
                self.soon_in("as the last search went", "#strength-words")
        browser.faults()

    def words_of_engines(self):
        found = []
        for pid in self.server.engines():
            try:
                found.append(set(Path(f"/proc/{pid}/cmdline").read_text().split("\0")))
            except OSError:
                continue
        return found

    def test_hexd_moves_after_a_reload(self):
        browser = self.start("4,b2,c3", players=("I", "I"))
        browser.click("#back")
        browser.choose("#player-w", "hexd")
        browser.reload()
        self.assertEqual(1, len(self.moves()))
        browser.choose("#player-w", "I")
        browser.click("#end")
        browser.cell("a1")
        browser.run("const select = document.getElementById('player-w'); select.value = 'hexd'; kept.save()")
        browser.reload()
        self.soon(4, lambda: len(self.moves()))
        self.soon("Your turn (Black)", self.words("#state"))

    def test_a_lost_process(self):
        browser = self.start("5,c3,b3,d2")
        browser.click("#back")
        for pid in self.server.engines():
            os.kill(pid, signal.SIGKILL)
        browser.cell("a1")
        self.soon_in("hexd was ended by signal 9 (Killed)", "#alert")
        self.shot("lost")
        self.browser.faults()
        browser.click("#again")
        self.assertFalse(browser.find("#alert").is_displayed())
        self.soon("5,c3,b3,d2,@2", self.link)
        browser.cell("a1")
        self.soon(["c3", "b3", "a1"], self.moves)

    def test_a_full_disk(self):
        """It is told as what it is, and the game goes on once there is room."""
        browser, pid = self.start("5,c3,b3,d2"), self.server.process.pid
        browser.run("play.game.held = null")
        resource.prlimit(pid, resource.RLIMIT_FSIZE, (0, resource.RLIM_INFINITY))
        browser.cell("a1")
        self.soon_in("Nothing is lost: the game is in this page.", "#said")
        self.assertIn("File too large", browser.text("#said"))
        resource.prlimit(pid, resource.RLIMIT_FSIZE, (resource.RLIM_INFINITY, resource.RLIM_INFINITY))
        self.browser.faults()
        browser.cell("a1")
        self.soon(["c3", "b3", "d2", "a1"], self.moves)

    def test_a_server_that_is_started_anew(self):
        """The page goes on by itself where its token is kept, and says what to do where it isn't."""
        with Server() as free:
            port = free.port
        anew = lambda: Server(port=("--port", str(port)))
        with anew() as server:
            browser = self.start("5,c3,b3", server=server)
        with anew():
            browser.cell("a1")
            self.soon(["c3", "b3", "a1"], self.moves)
            browser.choose("#player-w", "hexd")
            self.soon(4, lambda: len(self.moves()))
        self.browser.faults()
        with anew():
            browser.cell("e5" if "e5" not in self.moves() else "e4")
            self.soon(6, lambda: len(self.moves()))
        Path(os.environ["XDG_STATE_HOME"], "hexd", f"board-{port}.token").unlink()
        with anew():
            browser.press("#hint")
            self.soon_in("This page is of an earlier start of bin/hexd-board. Open the address that it prints now", "#alert")
        self.browser.faults()
        browser.driver.get("about:blank")

    def test_a_fault_of_the_page(self):
        """It is told, and the page goes on."""
        browser = self.start("5,c3")
        browser.run("play.game.play = () => { throw new Error('a test'); }")
        browser.cell("a1")
        self.soon("The page has a fault: a test", self.words("#said"))
        self.assertIn("a test", str(browser.faults()))
        browser.run("delete play.game.play")
        browser.cell("a1")
        self.soon(["c3", "a1"], self.moves)

    def test_back_without_a_process(self):
        browser = self.start("5,c3,b3")
        browser.click("#new")
        for pid in self.server.engines():
            os.kill(pid, signal.SIGKILL)
        browser.cell("a1")
        self.soon_in("hexd was ended by signal 9 (Killed)", "#alert")
        self.browser.faults()
        browser.driver.back()
        self.soon("5,c3,b3", self.link)
        browser.click("#again")
        self.soon("5,c3,b3", self.link)
        browser.cell("a1")
        self.soon("5,c3,b3,a1", self.link)

    def test_stop_ends_a_search(self):
        with Server() as server:
            browser = self.start("11,f6", players=("I", "I"), server=server)
            self.assertFalse(browser.find("#stop").is_displayed())
            self.halt(server)
            browser.press("#go")
            until(lambda: browser.find("#stop").is_displayed(), "there is Stop")
            self.soon("hexd thinks for White ..", self.words("#state"))
            until(lambda: re.fullmatch("[1-9][0-9]* s", browser.text("#seconds")), "seconds are told")
            browser.press("[data-vertex=a1]")
            self.soon("hexd is at work: Stop ends it.", self.words("#said"))
            browser.press("#stop")
            browser.ready()
            self.soon("", self.words("#said"))
            self.soon(["f6"], self.moves)
            self.halt(server)
            browser.press("#analyse")
            self.soon("hexd looks at position 1 of 2 ..", self.words("#state"))
            browser.press("#stop")
            browser.ready()
            self.soon("Your turn (White)", self.words("#state"))
            self.browser.faults()
            browser.cell("a1")
            self.soon(["f6", "a1"], self.moves)
            self.assertEqual(1, len(server.engines()))
            browser.driver.get("about:blank")

    def test_stop_while_a_session_is_opened(self):
        """The search isn't begun, and the process that came meanwhile goes."""
        with Server() as server:
            browser = self.start("8,a1,h8", players=("I", "I"), server=server)
            browser.run('''
                const held = new Promise(goOn => { window.goOn = goOn; }), {open} = Session;
                Session.open = async options => {
                  const session = await open(options);
                  window.isOpen = true;
                  await held;
                  return session;
                };''')
            browser.choose("#strength", "strong")
            browser.press("#hint")
            until(lambda: browser.run("return window.isOpen === true"), "another session is there")
            browser.press("#stop")
            browser.run("window.goOn()")
            browser.ready()
            nodes = settings.strength_options("strong", 8)["look"]
            self.assertIn(f"look-ahead of {nodes:,} nodes", browser.text("#strength-words"))
            self.assertNotIn("as the last search went", browser.text("#strength-words"))
            self.assertEqual(1, len(server.engines()))
            self.browser.faults()

    def halt(self, server):
        """What its processes are asked for then has no end, however late a busy browser is."""
        for pid in server.engines():
            os.kill(pid, signal.SIGSTOP)

    def test_a_page_that_goes_ends_its_session(self):
        browser = self.start("3")
        until(lambda: len(self.server.engines()) == 1, "there is one process")
        for _ in range(3):
            browser.open(self.server.address)
        until(lambda: len(self.server.engines()) == 1, "there is one process")
        browser.driver.get("about:blank")
        until(lambda: not self.server.engines(), "there is none")

    def test_the_page_after_the_last_place(self):
        with Server() as server:
            names = [server.session() for _ in range(16)]
            browser = self.browser
            browser.open(server.address)
            self.soon_in("there are 16 sessions", "#alert")
            self.browser.faults()
            browser.press("#again")
            self.soon_in("there are 16 sessions", "#alert")
            self.browser.faults()
            browser.press("#room")
            until(lambda: not browser.find("#alert").is_displayed(), "the page goes on")
            browser.ready()
            self.assertEqual(404, server.request("DELETE", f"session/{names[0]}")[0])
            browser.driver.get("about:blank")
