"""Puzzles on the page: given by grade, answered by proofs, played to the end, and kept."""

import json

import hexd
from tests.of_puzzlelist import empty_cells, listed
from tests.pages import Pages

WINNING_CELL = "return readCertificate(arguments[0]).claimed.cell"


class Puzzles(Pages):
    def setUp(self):
        super().setUp()
        self.name, self.size, self.black, self.white, self.wins = listed()[0]
        self.empty = empty_cells(self.size, self.black, self.white)
        self.wrong = next(cell for cell in self.empty if cell not in self.wins)

    def begin(self, grade="easy"):
        browser = self.start("3,a1,b2")
        browser.click("#puzzle")
        browser.click(f"[data-grade={grade}]")
        self.soon_in(f"Puzzle {grade}-01: Black to play and win.", "#words")
        return browser

    def play_to_the_end(self, choose):
        while not self.browser.run("return play.game.winner"):
            self.browser.cell(choose())
        self.browser.ready()

    def winning_cell(self):
        """How Black goes on, by the solver."""
        record = self.browser.run("return recordOfPath(play.game.at)")
        return self.browser.run(WINNING_CELL, hexd.solve(record.encode(), 10_000).certificate)

    def said(self):
        return self.browser.run("return [...document.querySelectorAll('#words .puzzle')].map(words => words.textContent)")

    def test_one_is_given_by_its_grade(self):
        browser = self.begin()
        asked = f"Puzzle {self.name}: Black to play and win. One of {len(self.empty)} cells wins, and after each other White"
        self.assertEqual([f"{asked} does. Proved: puzzles/{self.name}.cert.xz."], self.said())
        self.assertEqual("Your turn (Black)", browser.text("#state"))
        self.assertEqual(["I", "hexd"], [browser.find(f"#player-{colour}").get_attribute("value") for colour in "bw"])
        self.assertEqual([], self.moves())
        # The game before comes again by Back, and the next puzzle by the same button.
        browser.click("#puzzle")
        browser.click("[data-grade=easy]")
        self.soon_in("Puzzle easy-02", "#words")
        for _ in range(2):
            browser.back()
        self.soon("3,a1,b2", self.link)
        self.assertEqual([], self.said())

    def test_a_wrong_move_is_refuted(self):
        """By White's certificate, to the end; and Undo takes it back."""
        browser = self.begin()
        browser.cell(self.wrong)
        answer = self.moves()[1]
        loses = f"{self.wrong} loses: White wins by {answer}, proved."
        self.soon([f"{loses} Play on against it, or 'Undo' takes it back."], lambda: self.said()[1:])
        self.assertIn(f"Proved: {answer}.", browser.text("#words"))
        self.assertEqual("yes semi", browser.run("return play.game.at.parent.solved.checked"))
        browser.click("#undo")
        self.soon([], lambda: self.said()[1:])
        browser.click("#forth")
        browser.click("#forth")
        free = "return verticesOf(play.game.size).find(vertex => !play.game.stones.has(vertex))"
        self.play_to_the_end(lambda: browser.run(free))
        self.soon([f"White has won. {loses} 'Undo' takes moves back."], lambda: self.said()[1:])
        self.assertEqual({"b"}, {step["colour"] for step in browser.run("return play.game.steps")} - {"w"})
        # Each of White's moves was by the proof: none was searched.
        self.assertEqual(0, browser.run("return play.game.tree.line.filter(({thought}) => thought).length"))

    def test_one_is_solved(self):
        """Its cell is said to win, and not how Black goes on; once Black is joined it is solved, also after a reload."""
        browser = self.begin()
        browser.cell(self.wins[0])
        self.soon([f"{self.wins[0]} wins, proved. Play on to the end: hexd is White."], lambda: self.said()[1:])
        self.assertEqual("yes full", browser.run("return play.game.at.parent.solved.checked"))
        # White's search isn't told, which would name Black's threats; nor how Black answers by the certificate.
        self.assertNotIn("Of White's", browser.text("#words"))
        browser.click("#back")
        self.assertEqual([0, False], [len(browser.all(".reply")), "Black answers" in browser.text("#words")])
        browser.click("#forth")
        browser.reload()
        self.soon(2, lambda: len(self.said()))
        self.play_to_the_end(self.winning_cell)
        self.soon([f"Solved: Black has joined row 1 and row {self.size}."], lambda: self.said()[1:])
        self.assertEqual("You have won (Black).", browser.text("#state"))
        self.assertEqual([self.name], json.loads(browser.run("return localStorage.getItem('hexd-puzzles')")))
        browser.click("#puzzle")
        self.soon_in("easy: 1 of", "[data-grade=easy]")
        browser.click("[data-grade=easy]")
        self.soon_in("Puzzle easy-02", "#words")
        # The solved one isn't given again as long as others are left.
        last = "PUZZLES.findLast(({grade}) => grade === 'easy')"
        self.assertEqual("easy-02", browser.run(f"return nextPuzzle('easy', {last}).name"))

    def test_a_later_mistake_is_told(self):
        """After the cell that wins a move that gives the win away is found by the solver, and told."""
        browser = self.begin("medium")
        row = next(row for row in listed() if row[0] == "medium-01")
        browser.cell(row[4][0])
        self.soon(True, lambda: "wins, proved" in self.said()[-1])
        # One of the corners' cells is far from all.
        lost = "return verticesOf(play.game.size).filter(vertex => !play.game.stones.has(vertex)).at(-1)"
        is_won = "return !play.game.winner && provedAlong(play.game.at.path).at(-1)?.player === 'b'"
        while browser.run(is_won):
            browser.cell(browser.run(lost))
        self.soon(True, lambda: " loses: White wins" in self.said()[-1])
