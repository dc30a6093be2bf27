"""The page in windows of several sizes, in light and dark, and boards of all sizes and orientations."""

from selenium.webdriver.common.keys import Keys

from tests.browser import LAPTOP, LYING, NARROW, OLD, PHONES, SMALL, SMALL_LYING, TABLET, USUAL, WIDE
from tests.pages import Pages
from tests.palette import difference

WINDOWS = (("wide", WIDE), ("usual", USUAL), ("laptop", LAPTOP), ("old", OLD), ("tablet", TABLET), ("phone", NARROW), ("phone-lying", LYING),
           ("small-phone", SMALL), ("small-phone-lying", SMALL_LYING))
# The boxes and buttons of the column beside the board that pass the part they stand in.
PAST = """
    const ends = element => element.getBoundingClientRect().right;
    return [...document.querySelectorAll('aside :is(button, select, input)')].filter(it => it.checkVisibility())
      .filter(it => ends(it) > ends(it.closest('section, aside')) + 1).map(it => it.id);"""

# What is in view at once beside the board of a laptop, and how far its column could be scrolled.
ONE_SCREEN = ("#evaluation", "#set", "#words > :first-child", "#analyse", "#prove", "#moves", "#write", "#cut", "#plot", "#save",
              "#save-remarks", "#link", "#copy", "#copy-hexworld", "#png", "#resign")
PAST_BELOW = "const side = document.querySelector('aside'); return side.scrollHeight - side.clientHeight"
SETTINGS = ("#player-b", "#player-w", "#size", "#strength", "#show-visits", "#show-numbers", "#orientation")
# The places of all buttons and boxes that are seen, but for those inside lists.
PLACES = """
    const places = {};
    for (const it of document.querySelectorAll('button[id], select, input[type=text], #plot, #board')) {
      const {left, top} = it.getBoundingClientRect();
      if (it.checkVisibility({visibilityProperty: true}) && !it.closest('.said, #moves')) places[it.id] = [left, top];
    }
    return places;"""
# Whether a message lies inside the line above the board, which is in view.
IS_IN_LINE = """
    const [said, line] = ['said', 'status'].map(id => document.getElementById(id).getBoundingClientRect());
    return said.left >= line.left && said.right <= line.right && said.top >= line.top && said.bottom <= line.bottom &&
      line.top >= 0 && line.bottom <= innerHeight && said.height > 0;"""
# The part of the plot's width that is drawn.
FILLED = """
    const plot = document.getElementById('plot'), {width, height} = plot.getBoundingClientRect(), box = plot.viewBox.baseVal;
    return Math.min(1, box.width * height / box.height / width);"""


class Windows(Pages):
    def test_the_plot_fills_its_place(self):
        """Also in a window that has become another one since it was drawn."""
        self.browser.window(LYING)
        browser = self.start("3,b2")
        for size in (USUAL, NARROW, LAPTOP):
            browser.window(size)
            self.soon(True, lambda: browser.run(FILLED) > 0.97)

    def test_board_and_bar_are_in_view(self):
        self.start("11,f6,e7,g5,d8,c9,w-b10,h3,a1,k11")
        self.browser.click("#hint")
        for name, size in WINDOWS:
            for dark in (False, True):
                with self.subTest(window=name, dark=dark):
                    self.browser.window(size, dark)
                    # What hexd said comes back with the game.
                    self.browser.reload()
                    self.browser.run("scrollTo(0, 0)")
                    self.assertTrue(self.fits())
                    across = "const side = document.querySelector('aside'); return side.scrollWidth - side.clientWidth"
                    self.assertEqual(0, self.browser.run(across))
                    self.assertEqual([], self.browser.run(PAST))
                    if name in ("wide", "laptop"):
                        self.assertEqual(size[0], self.browser.run("return document.documentElement.clientWidth"))
                    for css in ("#status", "#board", "#back", "#undo", "#hint", "#go", "#swap", "#new"):
                        self.assertTrue(self.is_seen(css, size), css)
                    if name in ("wide", "laptop", "usual", "old"):
                        self.assertEqual([], [css for css in ONE_SCREEN if not self.is_seen(css, size)])
                        self.assertEqual(0, self.browser.run(PAST_BELOW))
                    if name in ("tablet", "phone-lying"):
                        self.assertTrue(self.is_seen("#player-b", size))
                    self.shot(f"{name}-{'dark' if dark else 'light'}")

    def test_settings(self):
        """What is set once opens by one button, and closes again."""
        browser = self.start("5,c3")
        browser.window(USUAL)
        self.assertFalse(any(browser.find(css).is_displayed() for css in SETTINGS))
        browser.click("#set")
        self.assertEqual([], [css for css in SETTINGS if not self.is_seen(css, USUAL)])
        self.shot("settings")
        browser.keys(Keys.ESCAPE)
        self.assertFalse(browser.find("#player-b").is_displayed())
        browser.window(NARROW)
        self.assertTrue(browser.find("#player-b").is_displayed())
        self.assertFalse(browser.find("#set").is_displayed())
        # A phone's order.
        parts = (".controls", "#thought", "#analyse", "#proof", "#course", "#looks", "#records")
        browser.run("document.getElementById('proof').hidden = false")
        tops = [browser.place(css)[1] for css in parts]
        self.assertEqual(tops, sorted(tops))

    def test_no_control_moves(self):
        """Whatever hexd says, however many moves and side lines there are, and whatever a record says of itself."""
        browser = self.start("5,c2,c3,d3")
        for size in (USUAL, LAPTOP):
            browser.window(size)
            before = browser.run(PLACES)
            seen = [lambda css=css: browser.click(css) for css in ("#go", "#hint", "#back", "#back", "#hint")]
            seen += [lambda vertex=vertex: browser.cell(vertex) for vertex in ("a1", "e5")]
            seen += [lambda: browser.click("#cut"), lambda: browser.click("#end"), lambda: browser.click("#write")]
            record = b"(;SZ[5]PB[A long name]PW[Another one]GN[A game]RE[B+R]C[%s];B[c2];W[c3];B[d3])" % (b"words " * 200)
            seen += [lambda: self.opened(record), lambda: browser.click("#first")]
            for act in seen:
                act()
                browser.ready()
                after = browser.run(PLACES)
                self.assertEqual({}, {name: (place, after.get(name)) for name, place in before.items()
                                      if name not in ("swap", "restore", "go", "stop") and after.get(name) != place})
            self.shot(f"full-{size[0]}")

    def test_the_bar_beside_the_board(self):
        """Black's share by the last search from below, and all of it if it is proved who wins."""
        browser = self.start("5,c2,c3,d3")
        bar = lambda: browser.find("#evaluation").get_attribute("aria-label")  # noqa: E731
        height = "return ['span', ''].map(it => document.querySelector(`#evaluation ${it}`).getBoundingClientRect().height)"
        self.soon("Of this position hexd has said nothing yet", bar)
        browser.run("play.game.at.thought = {mover: 'w', cell: 'c4', rows: [['c4', 10, 4]], playouts: 10, threats: []}; play.draw()")
        self.soon("60 % for Black, by hexd's search", bar)
        self.soon(True, lambda: 0.57 < (lambda black, all: black / all)(*browser.run(height)) < 0.62)
        browser.run("play.game.at.thought = null")
        browser.click("#go")
        self.soon("White wins, proved", bar)
        self.assertEqual("proved", browser.find("#evaluation").get_attribute("class"))
        self.soon(0, lambda: round(browser.run(height)[0]))
        # A share is told until hexd says something else.
        browser = self.start("11,f6,e7")
        browser.click("#go")
        self.soon(True, lambda: bool(bar().endswith("for Black, by hexd's search")))
        self.shot("evaluation")

    def test_a_message_covers_nothing(self):
        """On a phone it has the place of the line above the board, wherever one has scrolled; and it goes by itself."""
        browser = self.start("11,f6")
        waits = "window.setTimeout = (use, wait) => { window.waited = {use, wait}; return 0; }"
        for size in PHONES:
            with self.subTest(size=size):
                browser.window(size)
                for css, say in (("[data-vertex=f6]", "none"), ("#copy-hexworld", "a long message " * 20)):
                    browser.run(waits)
                    browser.click(css)
                    browser.run("play.message.say(arguments[0])", say)
                    self.assertTrue(browser.run(IS_IN_LINE))
                    self.assertLessEqual(browser.run("return waited.wait"), 90_000)
                    self.shot(f"message-{size[0]}")
                    browser.run("waited.use()")
                    self.assertFalse(browser.find("#said").is_displayed())

    def test_shades(self):
        """31 nodes of 250 and 58 are told apart in light, in dark, and by who doesn't tell red from green."""
        browser = self.start("5")
        script = """
            const rows = [['a1', 31, 20], ['c1', 58, 20], ['e1', 15, 5], ['a5', 130, 65], ['c5', 8, 2], ['e5', 8, 2]];
            play.game.at.thought = {mover: 'b', cell: 'a5', rows, playouts: 250, threats: [], isLook: true};
            byId('show-numbers').checked = false;
            play.draw()"""
        for dark in (False, True):
            for deficiency in ("none", "deuteranopia", "protanopia"):
                with self.subTest(dark=dark, deficiency=deficiency):
                    browser.window(WIDE, dark)
                    browser.run(script)
                    browser.sees_as(deficiency)
                    cells = ["b2", "c5", "e1", "a1", "c1", "a5"]
                    colours = browser.colours([f"[data-vertex={vertex}] .cell" for vertex in cells])
                    self.shot(f"shades-{'dark' if dark else 'light'}-{deficiency}")
                    steps = [difference(one, two) for one, two in zip(colours, colours[1:])]
                    self.assertGreater(min(steps), 9, steps)
        browser.sees_as("none")

    def is_seen(self, css, size):
        """Whether all of an element is inside the window."""
        box = self.browser.run("return document.querySelector(arguments[0]).getBoundingClientRect().toJSON()", css)
        begins = box["width"] > 0 and box["left"] >= 0 and box["top"] >= 0
        return begins and box["right"] <= size[0] and box["bottom"] <= size[1]

    def test_long_words_of_a_record_are_broken(self):
        word = b"https://example.org/" + b"x" * 80
        self.browser.window(SMALL)
        self.start("3")
        self.opened(b"(;SZ[3]PB[%s]GN[%s]RE[%s]C[%s];B[b2])" % ((word,) * 4))
        self.soon("3,b2", self.link)
        self.browser.click("#first")
        self.soon_in("https", "#record .comment")
        self.assertTrue(self.fits())
        self.assertEqual(SMALL[0], self.browser.run("return innerWidth"))

    def test_sizes_from_1_to_11(self):
        browser = self.start()
        for size in range(1, 12):
            browser.choose("#size", str(size))
            self.soon(size * size, self.marks("[data-vertex]"))
        browser.choose("#size", "1")
        browser.cell("a1")
        self.soon("Black has won.", self.words("#state"))

    def test_labels_and_lines_do_not_grow_with_a_small_board(self):
        browser = self.start("2")
        height = "return document.querySelector('.labels text').getBoundingClientRect().height"
        self.assertLess(browser.run(height), 32)
        # In pixels of the window; a cell of this board is some hundred wide.
        width = """
            const line = document.querySelector(arguments[0]), {a} = document.getElementById('board').getScreenCTM();
            return a * parseFloat(getComputedStyle(line).strokeWidth)"""
        browser.cell("a1")
        for css in (".cell", ".band", ".stone"):
            self.assertTrue(0 < browser.run(width, css) <= 2, css)

    def test_switches_explain_themselves(self):
        browser = self.start("3")
        labels = browser.all("#looks label:has(input)")
        self.assertEqual(4, len(labels))
        with browser.settings("#looks"):
            for label in labels:
                self.assertRegex(label.text, "^[A-Z][a-z ]+, [a-z ]+$")
                self.assertGreater(len(label.get_attribute("title").split()), 6)

    def test_corners_of_two_colours_are_split(self):
        browser = self.start("11")
        # Of a point in the bands the colour on top, at each corner on both sides of the line through its cell.
        colour = """
            const [column, row] = arguments, {bands, svg, layout} = play.view, point = svg.createSVGPoint();
            [point.x, point.y] = centreOf(column, row, layout);
            return bands.filter(band => band.isPointInFill(point)).at(-1)?.classList[1]"""
        for orientation in ("wide", "upright", "flipped"):
            browser.choose("#orientation", orientation)
            for column, row, want in ((10.7, -0.9, "b"), (10.9, -0.7, "w"), (-0.7, 10.9, "b"), (-0.9, 10.7, "w"),
                                      (-0.1, -0.8, "b"), (-0.8, -0.1, "w"), (10.1, 10.8, "b"), (10.8, 10.1, "w")):
                self.assertEqual(want, browser.run(colour, column, row), (orientation, column, row))
        browser.choose("#orientation", "auto")

    def test_orientations(self):
        browser = self.start("5,a5")
        for orientation, above in (("wide", "a1"), ("upright", "a1"), ("flipped", "a5")):
            browser.choose("#orientation", orientation)
            places = {vertex: browser.place(f"[data-vertex={vertex}] .cell") for vertex in ("a1", "e1", "a5", "e5")}
            self.assertEqual(above, min(places, key=lambda vertex: places[vertex][1]))
            # A row lies level, or the board stands on a corner.
            level = ("a5", "e1") if orientation == "upright" else ("a1", "e1")
            self.assertAlmostEqual(places[level[0]][1], places[level[1]][1], 0)
            self.shot(f"orientation-{orientation}")
        browser.choose("#orientation", "auto")
