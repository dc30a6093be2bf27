"""What the page shows of hexd's answers: searches, threats, certificates, and that a proof stays one."""

import re
from math import floor

import settings
from tests.pages import Pages
from tests.support import ROOT

# White wins with a certificate: README.md has this game.
CERTIFIED = "5,c2,c3,d3"
# White has two moves that do not lose at once.
THREATS = "5,b4,w-a2,a5"


class Thoughts(Pages):
    def test_a_search_and_its_switches(self):
        browser = self.start("5,c3")
        browser.click("#hint")
        self.soon(["c3"], self.moves)
        self.soon_in("of 200 visits", "#words")
        visits = sum(int(number.text) for number in browser.all(".count"))
        self.assertTrue(0 < visits <= 200)
        browser.point("[data-vertex='c1']")
        self.assertRegex(browser.text("#readout"), r"^c1, empty, \d+ visits \(\d+ %\)")
        browser.click("#show-visits")
        self.soon(0, self.marks(".shade"))
        browser.click("#show-visits")
        browser.click("#go")
        self.soon(2, lambda: len(self.moves()))
        self.soon(1, self.marks("#plot .mark"))

    def test_the_best_moves_and_their_shares(self):
        browser = self.start("5,c3")
        browser.click("#hint")
        rows = [row.text.split() for row in browser.all(".best tbody tr")]
        self.assertEqual(5, len(rows))
        self.assertEqual(rows, sorted(rows, key=lambda row: -int(row[1])))
        self.assertTrue(all(re.fullmatch("[a-e][1-5]", row[0]) and row[3] == "%" for row in rows))
        share = browser.text(f"[data-vertex='{rows[0][0]}'] .wins")
        self.assertEqual(" ".join(rows[0][2:]), share)

    def test_threats(self):
        browser = self.start(THREATS)
        browser.click("#hint")
        self.soon_in("Black has 2 threats: a stone outside the 2 allowed cells loses.", "#words")
        self.soon(23, self.marks(".hatch"))
        browser.click("#show-mustplay")
        self.soon(0, self.marks(".hatch"))
        browser.click("#show-mustplay")
        browser.point("#threats li:nth-child(1) button")
        self.soon({"c1", "d1", "c2", "b3", "c3"}, self.carrier)
        browser.click("#threats li:nth-child(2) button")
        browser.point("h1")
        self.soon({"d1", "e1", "d2", "c3", "d3", "c4", "d4", "c5", "d5"}, self.carrier)
        self.shot("threats")
        browser.click("#threats li:nth-child(2) button")
        browser.run("document.activeElement.blur()")
        browser.point("h1")
        self.soon(set(), self.carrier)

    def test_a_lost_board(self):
        browser = self.start("2,a2")
        browser.click("#hint")
        self.soon_in("White loses with every move but a swap", "#words")
        browser = self.start("3,b2,a1,c1")
        browser.click("#hint")
        self.soon_in("White loses with every move: no cell", "#words")
        # Beside a proof no search has a share for White.
        self.assertTrue(browser.run("return play.game.at.thought.rows.length"))
        self.assertNotIn("%", browser.text("#words"))
        self.assertEqual((0, 0), (self.marks(".best")(), self.marks(".count")()))

    def test_a_look_ahead(self):
        """Its nodes and what each cell is worth stand where a search has visits and wins."""
        browser = self.start("5,c3")
        read = """const report = 'nodes 9\\nb2 6 700 line c2 d2\\nc2 2 250\\nd2 0 500\\ne1 1 999 lost line b2';
        const said = {mover: 'w', cell: 'b2', swap: false, report: 'playouts 5\\nb2 5 1', certificate: null, checked: null};
        const mustplay = 'lost no\\nallowed b2 c2 d2 e1', thought = readThought({...said, mustplay, look: report});
        return [thoughtWords(thought), bestTable(thought).innerText, [...visitsOf(thought)].map(([cell, {won}]) => [cell, won]),
          isSwapBetter(thought), isSwapBetter({...thought, cell: 'c2'}), blackShare(thought).value.toFixed(2), [...thought.lines]];"""
        words, best, seen, *rest = browser.run(read)
        self.assertEqual("b2 has 6 of 9 nodes of the look-ahead, which gives White 70 %.", words[-1])
        self.assertTrue(best.startswith("MoveNodesWorth to Whiteb2670 %c2225 %e110 %"), best)
        self.assertEqual([["b2", 4.2], ["c2", 0.5], ["d2", 0], ["e1", 0]], [[cell, round(won, 3)] for cell, won in seen])
        self.assertEqual([False, True, "0.30", [["b2", ["b2", "c2", "d2"]], ["e1", ["e1", "b2"]]]], rest)

    def test_a_ghost_stone(self):
        browser = self.start("5,c3")
        browser.point("[data-vertex='b2']")
        self.assertEqual("ghost w", browser.find(".ghost").get_attribute("class"))
        browser.point("[data-vertex='c3']")
        self.assertEqual("ghost none", browser.find(".ghost").get_attribute("class"))

    def test_analyse_the_game(self):
        browser = self.start("4,b2,c3,b3,@1")
        browser.click("#analyse")
        self.soon("4,b2,c3,b3,@1", self.link)
        self.soon(4, self.marks("#plot .mark"))
        browser.click("#end")
        self.soon(0, lambda: browser.text("#words").count("said nothing yet"))


# What searches said of the positions of a line from the third on: the best move, and its share of wins.
SAID = """arguments[0].forEach(([cell, won], at) => {
  const position = play.game.tree.line[at + 2];
  const rows = [[cell, 100, won]], said = {mover: position.mover, cell, rows, playouts: 100, threats: [], swap: false};
  position.thought = {...said, win: false, lost: false, isLook: false};
});
play.draw();"""


class Judged(Pages):
    game = "8,a1,h8,b2,g7,c3,f6"
    said = (("d4", 62), ("e5", 45), ("c3", 85), ("b7", 20), ("a8", 82))

    def signs(self):
        found = [(it.get_attribute("class").split(), it.text.split()[-1]) for it in self.browser.all("#moves .move:has(.sign)")]
        return [(next(kind[3:] for kind in kinds if kind.startswith("is-")), sign) for kinds, sign in found]

    def test_moves_are_judged_by_shares(self):
        browser = self.start(self.game)
        browser.run(SAID, self.said)
        signs = [("doubtful", "b2?!"), ("blunder", "g7??"), ("best", "c3!"), ("good", "f6")]
        self.assertEqual(signs, self.signs())
        words = "White g7: a blunder: from 45 % to 15 % by hexd's searches; best e5."
        browser.click("#mistake")
        self.soon(["a1", "h8", "b2", "g7"], self.moves)
        self.soon(words, self.words("#words .judged"))
        self.assertIn("a blunder: from 45 % to 15 %", browser.find("#moves [aria-current]").accessible_name)
        self.shot("judged")
        # There is none behind it: from there the first comes again.
        browser.click("#end")
        browser.keys("m")
        self.soon(4, lambda: len(self.moves()))
        points = self.marks("#plot .mark")()
        browser.click("#save-remarks")
        browser.click("#save")
        record = self.saved_record()
        for part in (rb";B[b2]DO[]V[0.1]C[hexd: Black b2: doubtful: from 62 % to 55 % by hexd's searches; best d4. With",
                     rb";W[g7]BM[2]V[0.7]C[hexd: White g7: a blunder", rb";B[c3]TE[1]V[0.6]C[", rb";W[f6]V[0.64]C["):
            self.assertIn(part, record)
        browser.click("#save")
        self.assertEqual(record, self.saved_record())
        browser.click("#save-remarks")
        # Who opens it finds the marks and the shares, as the record's own.
        browser.click("#new")
        self.opened(record)
        self.soon(self.game, self.link)
        browser.ready()
        self.assertEqual([sign for sign in signs if sign[0] != "good"], self.signs())
        self.soon(points, self.marks("#plot .mark"))
        browser.keys("m")
        self.soon("White g7: the record calls it a blunder.", self.words("#words .judged"))
        self.soon(0, self.marks("#plot .proved"))

    def test_moves_are_judged_by_proofs(self):
        """A move that gives a proved win away says by what it loses, and the best one; who has lost can lose nothing."""
        browser = self.start("5,a4,c2")
        browser.click("#hint")
        (searched,) = browser.vertices("[data-vertex]:has(.chosen)")
        browser.click("#prove")
        proved = re.search("Solved: Black wins by ([a-e][1-5])", browser.text("#words .proved"))[1]
        self.assertNotEqual(searched, proved)
        browser.cell(searched)
        self.soon(f"Black {searched}: a win was proved, and after this move none is; best {proved}.", self.words("#words .judged"))
        browser.click("#prove")
        answer = re.search("Solved: White wins by ([a-e][1-5])", browser.text("#words .proved"))[1]
        self.soon(f"Black {searched}: loses: White wins by {answer}, proved; best {proved}.", self.words("#words .judged"))
        self.assertEqual([("blunder", f"{searched}??")], self.signs())
        browser.cell(answer)
        browser.click("#back")
        browser.click("#hint")
        browser.click("#end")
        self.soon(f"White {answer}: wins, proved.", self.words("#words .judged"))
        # Now Black has lost, whatever comes.
        browser.click("#hint")
        browser.cell(browser.vertices("[data-vertex]:not(:has(.stone))")[0])
        self.soon(0, self.marks("#words .judged"))


class Openings(Pages):
    def test_a_proved_opening(self):
        browser = self.start("5,a1")
        self.soon("Proved: after Black's a1 White wins; a swap gives the win away.", self.words("#words .proved"))
        self.soon(1, self.marks("#plot .mark.proved"))
        self.soon_in("Its certificate: openings/5-a1.cert.xz. To check it: xz -dc openings/5-a1.cert.xz | bin/hexd check", "#words")
        browser.cell("b1")
        self.soon(0, self.marks("#words .proved"))
        browser = self.start("5,e5")
        self.soon_in("Its certificate: openings/5-a1.cert.xz, of the board turned by half a circle.", "#words")

    def test_the_files_that_are_named(self):
        """Each opening that has a certificate is named by its file, and by no other."""
        browser, names = self.start("3"), {file.name for file in (ROOT / "openings").glob("*.cert.xz")}
        named = browser.run("""return arguments[0].flatMap(size => verticesOf(size).map(vertex => fileOfOpening(size, vertex)))""",
                            list(range(3, 9)))
        self.assertEqual(names, names & set(named))
        self.assertEqual(sum((size * size + 1) // 2 for size in range(3, 9)), len(set(named)))

    def test_the_map_on_an_empty_board(self):
        browser = self.start("3")
        self.soon(9, self.marks(".opening"))
        self.soon_in("a black one wins for Black, so White swaps", "#words")
        browser.point("[data-vertex='b2']")
        self.soon_in("Black wins after Black's first stone here, so White swaps", "#readout")
        browser.point("[data-vertex='a1']")
        self.soon_in("White wins after Black's first stone here, so White does not swap; openings/3-a1.cert.xz", "#readout")
        self.shot("map")
        self.soon_in("Proved, of each opening with a mark (9 of 9): ", "#words")
        self.soon_in("to check one: xz -dc FILE | bin/hexd check.", "#words")
        browser.cell("b2")
        self.soon(0, self.marks(".opening"))

    def test_the_answers_of_an_opening(self):
        """After the first stone its certificate answers each move of who loses, or goes on if its player is to move."""
        browser = self.start("5,c3")
        self.soon_in("By the certificate Black answers b1 by d2, ", "#words")
        self.assertEqual((16, "d2"), (len(browser.all(".reply")), browser.text("[data-vertex='b1'] .reply")))
        browser.point("[data-vertex='b1']")
        self.soon_in("b1, empty, answered by d2", "#readout")
        self.shot("answers")
        # Its file has the opening on the opposite cell.
        browser = self.start("5,e5")
        self.soon_in("By the certificate White plays c3.", "#words")
        self.assertEqual(["c3"], browser.vertices("[data-vertex]:has(.chosen)"))
        browser.point("[data-vertex='c3']")
        self.soon_in("the answer by the certificate", "#readout")
        self.assertIn("openings/5-a1.cert.xz, of the board turned by half a circle", browser.text("#words"))

    def test_guesses_on_an_empty_board(self):
        """Where nothing is proved: other marks, and other words, for a half of the cells and its opposite one alike."""
        browser, guesses = self.start("8"), settings.GUESSED["black"]["8"]
        self.assertEqual((64, 0), (len(browser.all(".guess")), len(browser.all(".opening"))))
        self.assertIn("Guessed, not proved: on each cell Black's chances", browser.text("#words"))
        share = f"{floor(guesses['b1'] / 10 + 0.5)} %"
        for cell in ("b1", "g8"):
            browser.point(f"[data-vertex='{cell}']")
            self.soon_in(f"{cell}, empty, guessed: Black wins {share} after his first stone here", "#readout")
        self.shot("guesses")
        browser.cell("g8")
        self.soon(0, self.marks(".guess"))
        self.assertIn(f"Guessed, not proved: after Black's g8 Black wins {share}, by ", browser.text("#words"))


class Certificates(Pages):
    def test_a_certified_win(self):
        browser = self.start(CERTIFIED)
        browser.click("#go")
        self.assertEqual("c4", self.moves()[-1])
        self.soon_in("White wins by c4: a certified win", "#words")
        self.soon_in("White joins column a and column e if White moves first", "#claim")
        self.soon("hexd check accepts it, in a run of its own.", self.words("#checked"))
        self.assertIn("c4", self.carrier())
        browser.click("#proof summary")
        lines = browser.all("#lines button")
        self.assertEqual([], [line.text for line in lines if not re.match(r"(adj|and|key|or) .* (touch|linked)", line.text)])
        browser.click("#lines li:last-child button")
        self.assertTrue(browser.all(".band.joined"))
        key = next(at for at, line in enumerate(lines, 1) if line.text.startswith("key"))
        browser.click(f"#lines li:nth-child({key}) button")
        self.soon(1, self.marks(".middle"))
        self.shot("certified")
        browser.click("#save-proof")
        certificate = browser.saved("c4.cert")
        session = self.server.session()
        self.assertEqual((200, "yes semi"), self.server.post(f"session/{session}/check", certificate))
        self.server.request("DELETE", f"session/{session}")
        self.assertEqual(certificate.count(b"\n") - 6, len(lines))

    def test_the_certificate_of_a_loss(self):
        """It says on every side that the other player wins, holds as the game goes on, and comes back by a reload."""
        browser = self.start("3,b2,a1,c1")
        browser.click("#hint")
        answers = "White loses with every move: no cell lies in each of Black's 2 threats.\nBlack answers a3 by b3, b3 by a3."

        def says_so():
            self.soon_in(answers, "#words")
            self.assertEqual("Black's certified win", browser.text("#proof-head"))
            self.assertRegex(browser.text("#claim"), "^Black joins row 1 and row 3 even if White moves first, ")
            self.soon("hexd check accepts it, in a run of its own.", self.words("#checked"))
            self.assertEqual("Black wins, proved", browser.find("#evaluation").get_attribute("title"))
            self.assertEqual({"a3", "b3"}, self.carrier())
            self.assertNotIn("White wins", browser.text("body"))

        says_so()
        browser.click("#save-proof")
        certificate, session = browser.saved("position.cert"), self.server.session()
        self.assertEqual((200, "yes full"), self.server.post(f"session/{session}/check", certificate))
        self.server.request("DELETE", f"session/{session}")
        follows = "Black wins: Black's certificate of move 4."
        browser.cell("a3")
        self.soon_in(f"{follows} It answers b3.", "#words .proved")
        browser.click("#undo")
        says_so()
        browser.click("#forth")
        self.soon_in(f"{follows} It answers b3.", "#words .proved")
        browser.click("#back")
        browser.cell("b1")
        self.soon_in(follows, "#words .proved")
        browser.click("#undo")
        browser.run("location.reload()")
        browser.ready()
        says_so()

    def test_a_lifted_entry(self):
        """V5 of docs/use/CERTIFICATES.md: what is linked without a stone is linked with it, and answers come by it."""
        browser = self.start("2")
        head, lines = ["hexcert 4", "size 2", "player black", "black", "white"], ["adj a2 a1", "adj a1 edge1", "adj a2 b1", "adj b1 edge1",
            "key 0 1", "key 2 3", "or 4 5", "put a2", "lift 6", "put", "move a2 8"]
        read = """
            const {lines, claimed} = readCertificate(arguments[0]), lifted = lines[8], answers = cell => {
              const following = new Following(claimed);
              return following.meet(cell) && following.answers;
            };
            return [lifted.words, [...lifted.carrier], [...claimed.carrier], answers('a1'), answers('b1')];"""
        words, carrier, all_cells, *answers = browser.run(read, "\n".join([*head, *lines, "semi 10", ""]))
        self.assertEqual("row 2 and row 1 are linked: these stones more leave what line 6 links", words)
        self.assertEqual((["a1", "b1"], ["a1", "b1", "a2"]), (carrier, all_cells))
        self.assertEqual([["b1"], ["a1"]], answers)

    def test_a_proof_stays_a_proof(self):
        browser = self.start(CERTIFIED)
        browser.click("#go")
        lost = "Black has lost: White's certificate of move 4. White answers "
        self.soon_in(lost, "#words .proved")
        # The plot has the position of the certificate and the one after it, both at White's rim.
        self.soon(2, self.marks("#plot .mark.proved"))
        # What Black puts into the carrier has an answer in the certificate.
        browser.click("#hint")
        self.soon_in(lost, "#words .proved")
        self.soon(2, self.marks("#plot .mark.proved"))
        # It stands before what is proved of the move, and what the search says.
        judged = r"White [a-e][1-5]: wins, proved\."
        self.assertRegex(browser.text("#words"), rf"^Black has lost: .*\n{judged}\nWith Black to move here:\n")
        self.soon_in(" of 200 visits", "#words")
        carrier = self.empty_carrier()
        browser.cell(min(carrier))
        self.soon_in("White wins: White's certificate of move 4. It answers ", "#words .proved")
        answers = browser.vertices("[data-vertex]:has(.chosen)")
        self.assertTrue(answers)
        # One who answers keeps it, and one who doesn't has left it.
        browser.cell(answers[0])
        self.soon_in("Black has lost: White's certificate of move 4.", "#words .proved")
        browser.click("#undo")
        outside = [vertex for vertex in browser.vertices("[data-vertex]:not(:has(.stone))") if vertex not in carrier]
        browser.cell(outside[0])
        self.soon(0, self.marks("#words .proved"))
        self.assertFalse(re.search("certificate of move", browser.text("#words")))

    def empty_carrier(self):
        """The cells of the certificate of the position before that are empty."""
        browser = self.browser
        browser.click("#back")
        carrier = self.carrier()
        browser.click("#end")
        return carrier & set(browser.vertices("[data-vertex]:not(:has(.stone))"))

    def test_who_wins(self):
        browser = self.start("4,d1,b3")
        browser.click("#prove")
        self.soon_in("Solved: ", "#words .proved")
        self.soon("hexd check accepts it, in a run of its own.", self.words("#checked"))
        move = re.search("Black wins by ([a-d][1-4])", browser.text("#words .proved"))[1]
        self.assertEqual([move], browser.vertices("[data-vertex]:has(.chosen)"))
        self.assertIn(move, self.carrier())
        browser.cell(move)
        self.soon_in("certificate of move 3", "#words .proved")
        self.soon(2, self.marks("#plot .mark.proved"))
        for size in range(1, 12):
            browser.choose("#size", str(size))
            self.assertTrue(browser.find("#prove").is_enabled(), size)
