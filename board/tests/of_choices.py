"""How hexd chooses its moves on the page: by a proof that the page holds, by a swap, by an opening near even."""

import re

import settings
from tests.certificates import LIFTED
from tests.pages import Pages
from tests.support import until

# What is asked of hexd from now on.
LISTEN = """window.asked = []; const ask = Session.prototype.ask;
Session.prototype.ask = function (line) { asked.push(line); return ask.call(this, line); };"""


# Moves by a clock: of a speed that falls by a tenth with each move. Each item is the time of a move and its options.
PLAYED = """const [nanoseconds, seconds, moves] = arguments, played = [];
const strengths = new Strengths(play.strengths), pace = strengths.pace(`clock-${seconds}`, 11);
for (let move = 0; move < moves; move++) {
  const {options} = pace, slower = 1.1 ** move;
  const milliseconds = slower * nanoseconds * (options.look + 2 * options.solve + options.playouts / 50) / 1e6;
  played.push([milliseconds, options]);
  pace.took(milliseconds);
}
return played;"""
# A clock that counts: each genmove takes as long as its nodes say, and none waits.
COUNTED = """let counted = 0;
play.game.now = () => counted;
const ask = Session.prototype.ask;
Session.prototype.ask = async function (line) {
  const answer = await ask.call(this, line);
  if (line.startsWith('genmove')) counted += arguments_ * play.game.options.look;
  return answer;
};"""


class Clock(Pages):
    def test_a_move_stays_within_its_time(self):
        """By a clock that counts: hexd uses half of the time and more, and no move takes more than it, whatever its speed."""
        self.start("11")
        for nanoseconds, seconds, moves in ((2_000_000, 5, 30), (500_000, 5, 30), (6_000_000, 60, 30), (2_000_000, 1, 30)):
            with self.subTest(nanoseconds=nanoseconds, seconds=seconds):
                played = self.browser.run(PLAYED, nanoseconds, seconds, moves)
                self.assertEqual([], [took for took, _ in played if took > 1000 * seconds])
                self.assertGreater(max(took for took, _ in played), 500 * seconds)
                self.assertGreater(played[-1][0], 300 * seconds)
        # A machine that is ever so fast: none asks for more than hexd takes.
        _, options = self.browser.run(PLAYED, 0.001, 60, 40)[-1]
        self.assertEqual(1_000_000, options["look"])
        self.assertTrue(all(value <= 1_000_000 for value in options.values()), options)

    def test_a_game_by_the_clock(self):
        """The next search has another hexd, which has the game, if other numbers are due; and the page says what it means."""
        browser = self.start("9,e5,c3")
        browser.choose("#strength", "clock-5")
        self.soon_in("takes at most some 5 seconds: now look-ahead of 50 nodes", "#strength-words")
        self.soon_in("such a game can't be repeated", "#strength-words")
        browser.run(COUNTED.replace("arguments_", "20"))
        looks = []
        for _ in range(4):
            looks.append(browser.run("return play.options.look"))
            browser.click("#go")
        self.soon(6, lambda: len(self.moves()))
        # 50 nodes take a second; then twice as many, until 3.5 s are used.
        self.assertEqual([50, 100, 175, 175], looks)
        browser.run(COUNTED.replace("arguments_", "200"))
        browser.click("#go")
        # The slowest of the last searches counts.
        self.assertLess(browser.run("return play.options.look"), 20)


# A run of the solver with a larger budget than this has no end but Stop, however late a busy browser is.
HELD = """
    const {session} = play.game, [most] = arguments;
    const solve = session.solve.bind(session), close = session.close.bind(session);
    session.solve = (record, budget) => (budget <= most ? solve(record, budget) : new Promise((_, lost) => {
      session.close = () => { lost(new SessionLost('a test')); return close(); };
    }));"""


# A game's clock that counts: `wait` has the time go on, and looks what comes of it.
TIMED = """const [values] = arguments;
let counted = 0;
play.timing.clock.now = () => counted;
window.wait = seconds => { counted += 1000 * seconds; play.timing.tick(); };
window.sounds = [];
window.sound = (...given) => sounds.push(given);
byId('timed').checked = true;
for (const [id, value] of Object.entries(values)) byId(id).value = value;
byId('timed').dispatchEvent(new Event('change'));"""
TIMES = {"minutes": 1, "increment": 5, "periods": 2, "period": 10}


class GameClock(Pages):
    def timed(self, players=("I", "I"), **times):
        browser = self.start("5", players)
        browser.run(TIMED, {**TIMES, **times})
        return browser

    def clocks(self):
        return self.browser.run("return [...document.querySelectorAll('#clocks > span')].map(it => it.textContent)")

    def wait(self, seconds):
        self.browser.run("wait(arguments[0])", seconds)
        self.browser.ready()

    def test_the_time_of_a_game(self):
        """Main time with an increment, then periods, and the end; it begins with the first move, and stands still in the past."""
        browser = self.timed()
        self.wait(100)
        self.assertEqual(["1:00", "1:00"], self.clocks())
        browser.cell("c3")
        self.wait(20)
        self.assertEqual(["1:00", "0:40"], self.clocks())
        browser.cell("b3")
        self.assertEqual(["1:00", "0:45"], self.clocks())
        self.assertEqual(1, len(browser.all("#clocks .running .dot.b")))
        self.wait(55)
        self.assertEqual("0:05.0", self.clocks()[0])
        browser.click("#back")
        self.wait(1_000)
        browser.click("#forth")
        self.assertEqual("0:05.0", self.clocks()[0])
        # Past the main time a period has begun, which comes again with each move that it was enough for.
        self.wait(12)
        self.assertEqual("0:03.0 (2)", self.clocks()[0])
        self.shot("clock")
        browser.cell("d2")
        self.assertEqual("0:10 (2)", self.clocks()[0])
        browser.cell("a1")
        self.wait(11)
        self.assertEqual("0:09.0 (1)", self.clocks()[0])
        browser.cell("a2")
        browser.cell("e5")
        self.wait(10)
        self.soon("White has won: Black's time is up.", self.words("#state"))
        # The record says so, and a reload finds it.
        browser.click("#save")
        self.assertRegex(self.saved_record(), rb"RE\[W\+T\].*;B\[forfeit\]BL\[0\]\)")
        browser.reload()
        self.soon("White has won: Black's time is up.", self.words("#state"))
        # Who takes the end back goes on without a clock.
        browser.click("#undo")
        self.soon("Your turn (Black)", self.words("#state"))
        browser.cell("e4")
        self.soon(7, lambda: len(self.moves()))
        self.assertEqual([], self.clocks())

    def test_without_periods_and_over_a_reload(self):
        browser = self.timed(increment=0, periods=0)
        browser.cell("c3")
        self.wait(30)
        browser.cell("b3")
        # The clock goes on meanwhile: here by the time of the day, which has gone on by far more.
        browser.run("play.timing.clock.since = Date.now() - 20_000; play.timing.clock.now = () => Date.now(); play.timing.clock.keep()")
        browser.reload()
        self.soon(True, lambda: bool(re.fullmatch("0:[0-3][0-9](\\.[0-9])?", self.clocks()[0])))
        self.assertEqual("0:30", self.clocks()[1])
        browser.run("play.timing.clock.now = () => Date.now() + 60_000")
        self.soon("White has won: Black's time is up.", self.words("#state"))
        # Another game has no clock but that of the settings.
        self.opened(b"(;SZ[4];B[b2])")
        self.soon("4,b2", self.link)
        browser.ready()
        self.assertEqual([], self.clocks())
        browser.run("byId('timed').checked = false; kept.save()")
        browser.click("#new")
        self.assertEqual([], self.clocks())

    def test_sounds(self):
        """Of a move, and once of a clock that is low; none unless they are wanted."""
        browser = self.timed()
        self.assertFalse(browser.find("#sounds").is_selected())
        browser.cell("c3")
        self.assertEqual(1, browser.run("return sounds.length"))
        for seconds in (49, 2, 1):
            self.wait(seconds)
        self.assertEqual(2, browser.run("return sounds.length"))

    def test_hexd_by_its_clock(self):
        """By seconds a move it takes no more than its clock leaves it; and it loses by time too."""
        browser = self.timed(players=("I", "I"), minutes=1, increment=0, periods=0)
        # White wins after this stone: so he does not swap.
        browser.cell("a1")
        seconds = browser.run("return play.timing.seconds")
        self.assertAlmostEqual(0.9 * 60 / 8, seconds, 1)
        browser.choose("#strength", "clock-60")
        slow = """const pace = play.pace;
            pace.took(60_000);
            const before = pace.factor, after = play.pace.factor;
            return [Math.max(...pace.paces) * after <= pace.clock.share * play.timing.seconds + 1e-6, after < before];"""
        self.assertEqual([True, True], browser.run(slow))
        browser.run("play.game.think = () => new Promise((_, lost) => { play.game.session.close = async () => lost(new SessionLost('a test')); })")
        browser.press("#go")
        self.soon("hexd thinks for White ..", self.words("#state"))
        browser.run("wait(100)")
        self.soon("Black has won: White's time is up.", self.words("#state"))
        browser.faults()


class Solver(Pages):
    def test_the_solver_on_every_size(self):
        """It tells how far it has come, can be stopped, keeps what it has, and says what a larger budget would cost."""
        browser = self.start("11,f6,d5")
        browser.run(HELD, 0)
        browser.press("#prove")
        self.soon_in("up to 100 positions", "#words")
        browser.press("#stop")
        browser.ready()
        self.browser.faults()
        # Smaller, as these positions are entered: but the solver comes to no end with 100 of them.
        browser = self.start("7,a4,d4")
        browser.run(HELD, 100)
        browser.press("#prove")
        self.soon_in("The solver: 100 positions in ", "#words")
        self.assertIn("no end yet; now up to 400 positions.", browser.text("#words"))
        self.shot("solving")
        browser.press("#stop")
        browser.ready()
        self.soon_in("The solver entered 100 positions in ", "#words")
        self.assertRegex(browser.text("#words"), "400 positions would take some .*: 'Who wins.' again tries it")
        self.soon(["a4", "d4"], self.moves)
        self.browser.faults()
        browser.run(HELD, 0)
        browser.press("#prove")
        self.soon_in("up to 400 positions", "#words")
        browser.press("#stop")
        browser.ready()
        self.browser.faults()

    def test_large_numbers(self):
        """Those of a long certificate's lines stand in one line."""
        browser = self.start("4,d1,b3")
        browser.click("#prove")
        browser.click("#proof summary")
        height = "return document.querySelector('#lines li').getBoundingClientRect().height"
        before = browser.run(height)
        browser.run("document.getElementById('lines').style.counterSet = 'line 117665'")
        self.assertEqual(before, browser.run(height))


# Which looks are asked for from now on, of sessions of their own, and how many of those are closed.
OPENED = """window.looks = []; window.ended = 0;
const {open} = Session;
Session.open = async options => {
  const session = await open(options), {close} = session;
  session.close = () => { ended++; return close.call(session); };
  looks.push(options.look);
  return session;
};"""
# A look with more nodes than this has no end, however late a busy browser is.
HELD_LOOKS = """const {thoughtOf} = Game.prototype, [most] = arguments;
Game.prototype.thoughtOf = function (position) {
  return this.options.look > most ? new Promise(() => {}) : thoughtOf.call(this, position);
};"""


class Live(Pages):
    def test_live_analysis(self):
        """It looks on while one looks, the page plays on meanwhile, and each position has its own looks, which end with it."""
        browser = self.start("7,a1,g7,b2")
        browser.run(OPENED)
        browser.run(HELD_LOOKS, 250)
        rows = lambda: [row.text.split() for row in browser.all(".best tbody tr")]  # noqa: E731
        browser.click("#live")
        self.assertEqual("true", browser.find("#live").get_attribute("aria-pressed"))
        self.soon_in("hexd looks ahead: 1,000 nodes ..", "#words")
        self.soon_in(" of the look-ahead", "#words")
        # A move with its nodes and worth, and three that follow.
        self.assertTrue(rows() and all(len(row) == 7 and row[3] == "%" for row in rows()), rows())
        looks = browser.run("return looks")
        self.assertEqual([100, 250, 1_000], [nodes for nodes in looks if nodes != 50])
        self.assertEqual([50], looks[1:2])
        # Each session but the last one is closed, and the page isn't at work.
        self.assertEqual(len(looks) - 1, browser.run("return ended"))
        self.assertEqual("Your turn (White)", browser.text("#state"))
        # What is pointed at is laid upon the board.
        line = [rows()[0][0], *rows()[0][4:]]
        browser.point(".best tbody tr")
        stones = "[data-vertex]:has(.stone[class*=next-])"
        self.soon(set(line), lambda: set(browser.vertices(stones)))
        self.assertEqual(["1", "3"], [browser.text(f"[data-vertex={line[at]}] .number") for at in (0, 2)])
        self.assertIn("stone next-1 w", browser.find(f"[data-vertex={line[0]}] .stone").get_attribute("class"))
        self.shot("live")
        browser.point("h1")
        self.soon([], lambda: browser.vertices(stones))
        # A click plays at once, and the next position is looked at.
        browser.cell("d4")
        self.soon(["a1", "g7", "b2", "d4"], self.moves)
        self.soon_in("hexd looks ahead: 1,000 nodes ..", "#words")
        self.soon_in("With Black to move here", "#words")
        # Back at the first position what was found is there, and no small look comes again.
        browser.run("looks.length = 0")
        browser.click("#back")
        self.soon([1_000], lambda: browser.run("return looks"))
        # Who leaves a position and comes back at once finds it looked at as before.
        browser.run("for (const id of ['forth', 'back', 'forth', 'back', 'forth', 'back']) byId(id).click()")
        browser.ready()
        self.soon_in("hexd looks ahead: 1,000 nodes ..", "#words")
        self.assertFalse(browser.find("#said").is_displayed())
        browser.keys("a")
        self.assertEqual("false", browser.find("#live").get_attribute("aria-pressed"))
        self.soon(0, lambda: browser.text("#words").count("looks ahead"))
        # After a reload too.
        found = rows()
        browser.reload()
        self.assertEqual(found, rows())

    def test_live_analysis_ends_where_all_is_known(self):
        """A certified win is no matter of looks."""
        browser = self.start("5,c2,c3,d3")
        browser.run(OPENED)
        browser.click("#live")
        self.soon_in("White wins by c4: a certified win", "#words")
        self.soon([100], lambda: browser.run("return looks"))
        self.soon(1, lambda: browser.run("return ended"))

    def test_live_analysis_that_fails(self):
        browser = self.start("8,a1,h8")
        browser.run("Session.open = async () => { throw new SessionLost('There is no place.'); }")
        browser.click("#live")
        self.soon("The analysis has ended. There is no place.", self.words("#said"))
        self.assertEqual("false", browser.find("#live").get_attribute("aria-pressed"))
        browser.cell("d4")
        self.soon(["a1", "h8", "d4"], self.moves)


class Choices(Pages):
    def test_a_proof_is_played_to_the_end(self):
        """A win that the solver has found is played answer by answer, without a search, whatever the other player does."""
        browser = self.start("5,a4,c3")
        browser.click("#prove")
        self.soon_in("Solved: Black wins by b2, against every reply", "#words .proved")
        browser.run(LISTEN)
        browser.choose("#player-b", "hexd")
        self.soon(["a4", "c3", "b2"], self.moves)
        self.soon_in("Proved: b2.", "#words")
        for move in range(18):
            replies = browser.run("return [...play.panel.replies].map(([cell, answers]) => [cell, answers[0]])")
            if move == 0:
                self.assertRegex(browser.text("#words .proved"), "Black answers [a-e][1-5] by [a-e][1-5]")
                self.assertEqual(len(replies), len(browser.all(".reply")))
                self.shot("answers")
            if "has won" in browser.text("#state"):
                break
            # Now what has an answer, and now what has none.
            free = browser.vertices("[data-vertex]:not(:has(.stone, .reply))")
            cell, answer = (free[0], None) if (free and move % 3 == 2) or not replies else replies[move % len(replies)]
            if answer:
                browser.point(f"[data-vertex={cell}]")
                self.soon_in("answered by ", "#readout")
            browser.cell(cell)
            if answer:
                self.assertEqual(answer, self.moves()[-1])
        self.soon("hexd has won (Black).", self.words("#state"))
        self.assertEqual([], browser.run("return asked.filter(line => line.startsWith('genmove'))"))

    def test_answers_by_lifted_lines(self):
        """In a certificate of version 4 an answer's line may be one that holds with a stone more."""
        browser = self.start("2")
        answers = """const following = new Following(readCertificate(arguments[0]).claimed);
        following.meet(arguments[1]);
        return following.answers"""
        self.assertEqual([["b1"], ["a1"]], [browser.run(answers, LIFTED, cell) for cell in ("a1", "b1")])

    def test_a_proof_is_played_where_a_search_loses(self):
        browser = self.start("5,a4,c2")
        browser.click("#hint")
        (searched,) = browser.vertices("[data-vertex]:has(.chosen)")
        browser.click("#prove")
        proved = re.search("Solved: Black wins by ([a-e][1-5]), against every reply", browser.text("#words .proved"))[1]
        browser.click("#go")
        self.soon(["a4", "c2", proved], self.moves)
        browser = self.start(f"5,a4,c2,{searched}")
        browser.click("#prove")
        self.soon_in("Solved: White wins", "#words .proved")

    def test_hexd_swaps(self):
        """If the stone wins by a certificate of openings/, or by the search; and not if it loses, whatever a search says."""
        for link, moves in (("5,c3", ["c3", "swap"]), ("8,e4", ["e4", "swap"])):
            browser = self.start(link, players=("I", "hexd"))
            browser.run("play.strengths.started = {weight: 0, playouts: 20000}")
            browser.click("#go")
            self.soon(moves, self.moves)
            self.soon_in("hexd swaps", "#words")
            self.soon("Your turn (Black)", self.words("#state"))
        # After 5,a2 this search gives White 48 %, and a certificate says that he wins.
        for link in ("5,a1", "5,a2", "8,a1"):
            browser = self.start(link, players=("I", "hexd"))
            browser.run("play.strengths.started = {weight: 0, playouts: 200}")
            browser.click("#go")
            self.soon(2, lambda: len(self.moves()))
            self.assertRegex(self.moves()[1], "^[a-h][1-8]$")

    def test_a_guess_stands_for_a_smaller_look(self):
        """Whether White swaps is said by the guess of the opening, unless hexd looked at more nodes, or knows who wins."""
        browser = self.start("3")
        said = {"win": False, "lost": False, "cell": "a2", "rows": [["a2", 10, 3]], "budget": 400}
        for other, share, want in (({}, 0.4, False), ({}, 0.6, True), ({"budget": 401}, 0.4, True), ({"budget": None}, 0.4, False),
                                   ({"lost": True}, 0.4, True), ({"win": True}, 0.6, False)):
            got = browser.run("return isSwapBetter(...arguments)", {**said, **other}, {"share": share, "nodes": 400})
            self.assertEqual(want, got, (other, share))
        self.assertTrue(browser.run("return isSwapBetter(...arguments)", said))
        browser = self.start("8,f3")
        browser.click("#go")
        self.soon(["f3", "swap"], self.moves)
        self.soon_in(", by its guess of this opening.", "#words")

    def test_hexd_opens_near_even(self):
        for size in ("5", "11"):
            self.browser.forget()
            browser = self.start(size, players=("hexd", "I"))
            self.soon([settings.TABLE["even"][size]], self.moves)
            self.soon_in("An opening near even", "#words")
        self.assertTrue(browser.find("#swap").is_displayed())

    def test_hexd_against_itself_with_the_swap(self):
        browser = self.start("5", players=("hexd", "I"))
        browser.choose("#player-w", "hexd")
        until(lambda: "has won" in browser.text("#state"), "the game has ended")
        browser.ready()
        # Whoever is second wins: of each opening it is known whether it wins.
        self.soon("White has won.", self.words("#state"))

    def test_who_wins_with_the_swap(self):
        """What is solved is of stones: with a swap open its words say who wins with it."""
        browser = self.start("6,c4")
        browser.click("#prove")
        self.soon_in("Solved: without a swap Black wins, whatever White plays", "#words")
        self.soon_in("So White swaps, and wins.", "#words")
        browser.click("#swap")
        browser.click("#prove")
        self.soon_in("Solved: White wins, whatever Black plays", "#words")
        browser = self.start("5,a1")
        browser.click("#prove")
        self.soon(True, lambda: bool(re.search("White wins by [a-e][1-5], .* So White does not swap.", browser.text("#words"))))
        browser = self.start("5")
        browser.click("#prove")
        even = settings.TABLE["even"]["5"]
        self.soon_in(f"White takes over a first stone that wins: best is one of which it is least sure, as {even}.", "#words")
        browser.click("#go")
        self.soon([even], self.moves)
