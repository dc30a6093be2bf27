"""Records, links, copies and pictures."""

import lzma
import re
from datetime import date

from tests import table
from tests.certificates import FULL, SEMI
from tests.pages import Pages
from tests.support import ROOT, Server, until

# What the page's reader makes of the bytes of a file.
READ = """
    try {
        const {root, notes} = readRecord(recordText(Uint8Array.from(arguments[0])));
        return [writeSgf(root), notes];
    } catch (fault) {
        return fault.message;
    }"""


class Records(Pages):
    def test_save_and_open(self):
        browser = self.start("4,b2,swap,c3,w-a1")
        browser.click("#save")
        record = self.saved_record()
        self.assertEqual(b"(;FF[4]GM[11]SZ[4];B[b2];W[swap-pieces];B[c3];W[a1])\n", record)
        browser.click("#new")
        self.soon([], self.moves)
        self.opened(record)
        self.soon("4,b2,swap,c3,a1", self.link)

    def test_the_table(self):
        """The page reads what reports and hexd-gtp read (of_conversion.py)."""
        browser = self.start("3")
        for given, text, notes in table.READ:
            with self.subTest(given=given[:80]):
                self.assertEqual([f"(;FF[4]GM[11]{text}", notes], browser.run(READ, list(given)))
        for given, why in (*table.REFUSED, *table.QUOTED):
            with self.subTest(given=given[:80]):
                self.assertEqual(why, browser.run(READ, list(given)))

    def test_what_is_quoted_is_a_line(self):
        """Of names, results and moves that others wrote the page shows one printable line each, and of many changes some."""
        browser = self.start("3")
        name = "x\u202e\n\n" + 100 * "y"
        self.opened(f"(;SZ[5]PB[{name}]GN[{name}]RE[{name}];B[a1])".encode())
        line = "x???" + 56 * "y"
        self.soon([f"Black: {line}", line, f"Result: {line}"], lambda: browser.text("#record").split("\n"))
        self.opened(b"(;SZ[5];B[a1]" + 1_000 * b";W[]" + b")")
        self.soon_in("Of 980 changes more nothing is said.", "#said")
        self.assertEqual(20, browser.text("#said").count("is a pass of White's"))
        for text, quoted in ((f"5 a1 {100 * 'z'}", 60 * "z"), ("5 a1 b\u202e2", "b?2")):
            browser.run("play.openText(arguments[0])", text)
            self.soon_in(f"'{quoted}' is no move", "#said")

    def test_a_saved_game(self):
        """The line that one is on is the first variation; who played, when, and how it ended."""
        browser = self.start("4", players=("I", "I"))
        for cell in ("a1", "c3"):
            browser.cell(cell)
        browser.click("#undo")
        browser.cell("b3")
        browser.click("#save")
        head = f"(;FF[4]GM[11]SZ[4]PB[Human]PW[Human]DT[{date.today()}]AP[hexd]"
        self.assertEqual(f"{head};B[a1](;W[b3])(;W[c3]))\n", self.saved_record().decode())
        browser.click("#first")
        for cell in ("b1", "a1", "b2", "a2", "b3", "a3", "b4"):
            browser.cell(cell)
        # Elsewhere on the line the record is the same.
        browser.click("#back")
        browser.choose("#player-w", "hexd")
        browser.click("#save")
        line = ";B[b1];W[a1];B[b2];W[a2];B[b3];W[a3];B[b4]"
        head = head.replace("PW[Human]", "PW[hexd (200 playouts)]")
        self.assertEqual(f"{head}RE[B+]({line})(;B[a1](;W[c3])(;W[b3])))\n", self.saved_record().decode())

    def test_a_result_is_of_its_moves(self):
        """A record's result goes once one plays on."""
        browser = self.start()
        self.opened(b"(;SZ[4]PB[Anna]RE[W+T];B[b2];W[c3])")
        self.soon(1, self.marks("#record .result"))
        browser.click("#save")
        self.assertEqual(b"(;FF[4]GM[11]SZ[4]PB[Anna]RE[W+T];B[b2];W[c3])\n", self.saved_record())
        browser.cell("a1")
        self.soon(0, self.marks("#record .result"))
        browser.click("#save")
        self.assertEqual(b"(;FF[4]GM[11]SZ[4]PB[Anna];B[b2];W[c3];B[a1])\n", self.saved_record())

    def test_what_is_refused_says_why(self):
        browser = self.start("4,b2")
        for record, why in (
            (b"(;GM[1])", "hexd: it is a record of another game than Hex: GM[1]"),
            (b"none", "hexd: it is no record of a game"),
            (b"for (;;) {}", "hexd: it is no record of a game"),
            (b"\x89PNG\0(;B[a1])", "hexd: it is no record of a game"),
            (b"(;SZ[14];B[a1])", "hexd: size 14: hexd plays 1 to 11"),
            (b"(;SZ[3];B[b2];W[b2])", "hexd: move 2 is illegal: White b2, for there is a stone on it"),
            (b"(;SZ[3];B[b2];W[d1])", "hexd: move 2 is illegal: White d1, for the board of size 3 has no such cell"),
            (
                b"(;SZ[3];B[b2];W[c3];B[swap])",
                "hexd: move 3 is illegal: Black swap-pieces, for only White may swap, and only Black's first stone",
            ),
            (b"(;SZ[3];B[b2];W[x-y])", "hexd: move 2 is no move: White 'x-y'"),
            (b"(;SZ[3]AB[b2]AW[a1];W[a2];B[a2])", "hexd: move 2 is illegal: Black a2, for there is a stone on it"),
            (b"(;SZ[3]AB[b2]AW[b2])", "hexd: no stone of the start can lie on b2, for there is a stone on it"),
        ):
            with self.subTest(record=record):
                self.opened(record)
                self.soon(why, self.words("#said"))
                browser.ready()
                self.browser.faults()
                self.soon("4,b2", self.link)
        browser.cell("c3")
        self.soon("4,b2,c3", self.link)

    def test_what_a_record_says_is_kept(self):
        browser = self.start()
        record = (
            "(;FF[4]GM[11]SZ[5]PB[An\\]na]PW[\u00c5se]RE[B+R]GN[A game]C[Begins];B[c3]C[The middle];W[b3]"
            "(;B[d2];W[resign])(;B[a1]C[Weak];W[a2]))"
        )
        self.opened(record.encode())
        self.soon("5,c3,b3,d2", self.link)
        self.soon("Black: An]na, White: \u00c5se", self.words("#record .names"))
        self.soon("Result: B+R", self.words("#record .result"))
        self.soon("Black has won: White resigns.", self.words("#state"))
        self.soon("White resigns at move 4.", self.words("#said"))
        browser.click("#first")
        self.soon("Begins", self.words("#record .comment"))
        browser.click("#forth")
        self.soon("The middle", self.words("#record .comment"))
        browser.click("#end")
        browser.click("#moves .side")
        self.soon("Weak", self.words("#record .comment"))
        browser.click("#moves .side")
        browser.click("#save")
        self.assertEqual(record + "\n", self.saved_record().decode())

    def test_a_record_of_another_program(self):
        browser = self.start()
        record = b"\xef\xbb\xbfFrom a mail (2):\r\n(;SZ[5]PB[Jos\xe9];B[C3];W[Swap];B[ee];W[];B[A1](;W[b1])(;W[q-q]))"
        self.opened(record)
        self.soon("5,c3,swap,e5,b-a1,b1", self.link)
        said = browser.text("#said")
        self.assertIn("Move 4 is a pass of White's, which Hex hasn't: it is left out.", said)
        self.assertIn("A side line is left out: move 6 is no move: White 'q-q'.", said)
        self.assertIn("Jos\u00e9", browser.text("#record .names"))
        self.opened(b"(;SZ[5];B[c3]LB[a1:x];LB[b2:y]C[Later];W[b3])")
        self.soon("5,c3,b3", self.link)
        self.soon("Left out: LB of nodes without a move.", self.words("#said"))
        browser.click("#back")
        self.soon("Later", self.words("#record .comment"))

    def test_hexds_remarks_are_saved_if_asked_for(self):
        browser = self.start("5")
        self.opened(b"(;SZ[5]C[Begins];B[c3]C[A \\] in it];W[b3](;B[a1])(;B[e5]))")
        self.soon("5,c3,b3,a1", self.link)
        browser.click("#moves .side")
        browser.click("#hint")
        browser.click("#moves .side")
        browser.click("#analyse")
        browser.click("#save")
        self.assertNotIn(b"hexd: ", self.saved_record())
        browser.click("#save-remarks")
        for _ in range(2):
            browser.click("#save")
            record = self.saved_record().decode()
            # Before what was found of a position stands how its move is judged.
            self.assertEqual(5, len(re.findall(r"hexd: [^]]*With (?:Black|White) to move: ", record)))
            self.assertIn("C[Begins\n\nhexd: With Black to move: ", record)
            visits = r"Visits, and wins of them: [a-e][1-5] \d+ \(\d+ %\)"
            self.assertRegex(record, rf"C\[A \\\] in it\n\nhexd: With White to move: [^]]*{visits}")
            # Who opens it sees them, and they don't come twice when it is saved again.
            self.opened(record.encode())
            browser.ready()
            self.soon_in("With White to move: ", "#record .comment")
            browser.click("#analyse")
            browser.click("#moves .side")
            browser.click("#hint")
            browser.click("#moves .side")
        browser.click("#save-remarks")

    def test_a_certificate_is_opened(self):
        browser = self.start("3,b2", players=("I", "I"))
        self.opened(SEMI, "c4.cert")
        self.soon("4,+b-d1,+w-b3", self.link)
        browser.ready()
        self.soon_in("Solved: Black wins by ", "#words .proved")
        self.soon_in("Black joins row 1 and row 4 if Black moves first", "#claim")
        self.soon("hexd check accepts it, in a run of its own.", self.words("#checked"))
        self.soon("hexd's turn (Black)", self.words("#state"))
        self.soon(1, self.marks("#plot .mark.proved"))
        self.assertEqual(["hexd", "I"], [browser.find(f"#player-{it}").get_attribute("value") for it in "bw"])
        for wrong in (SEMI.replace(b"white b3", b"white b4"), SEMI[:-3]):
            self.opened(wrong, "wrong.cert")
            self.soon_in("hexd: the certificate is refused: no", "#said")
            browser.ready()
            self.soon("4,+b-d1,+w-b3", self.link)

    def test_against_a_certificate(self):
        """hexd plays the winner, and I move first."""
        browser = self.start("4,b2", players=("I", "I"))
        self.opened(FULL, "b2.cert")
        self.soon("3,b2", self.link)
        browser.ready()
        self.soon_in("Proved: after Black's b2 Black wins; a swap takes the win.", "#words")
        self.soon_in("Solved: without a swap Black wins, whatever White plays", "#words")
        self.soon_in("By the certificate Black answers b1 by c1, c1 by b1", "#words")
        self.soon(1, lambda: browser.text("#words").count("Black answers"))
        before = (browser.text("#words"), self.carrier())
        browser.reload()
        self.soon(before, lambda: (browser.text("#words"), self.carrier()))
        self.soon("Your turn (White)", self.words("#state"))
        browser.cell("b1")
        self.soon(["b2", "b1"], lambda: self.moves()[:2])
        self.soon_in("White has lost: Black's certificate of move ", "#words .proved")
        browser.cell(browser.vertices("[data-vertex]:not(:has(.stone))")[0])
        self.soon_in("hexd has won (Black)", "#state")

    def test_a_packed_certificate_is_refused(self):
        """Those of openings/ are packed by xz: the page says what unpacks them, and keeps its game."""
        self.start("4,b2", players=("I", "I"))
        self.opened((ROOT / "openings" / "5-c3.cert.xz").read_bytes(), "5-c3.cert.xz")
        self.soon_in("hexd: 5-c3.cert.xz is packed by xz, which a browser doesn't unpack: open what `xz -dk 5-c3.cert.xz` makes", "#said")
        self.assertEqual("4,b2", self.link())

    def test_a_dropped_certificate(self):
        browser = self.start("4,b2", players=("I", "I"))
        drop = """
            const dataTransfer = new DataTransfer(), given = {dataTransfer, bubbles: true, cancelable: true};
            dataTransfer.items.add(new File([arguments[0]], 'b2.cert'));
            return ['dragover', 'drop'].map(kind => document.getElementById('stage').dispatchEvent(new DragEvent(kind, given)));"""
        # The browser itself does nothing with what the page takes.
        self.assertEqual([False, False], browser.run(drop, FULL.decode()))
        self.soon("3,b2", self.link)
        self.soon_in("By the certificate Black answers b1 by c1, c1 by b1", "#words")

    def test_a_certificate_wins_for_a_weak_hexd(self):
        """By the certificate alone: this hexd sees nothing else."""
        certificate = lzma.decompress((ROOT / "openings" / "5-c3.cert.xz").read_bytes())
        with Server("--playouts", "1", "--hsearch", "off", "--workers", "1") as server:
            browser = self.start("4,b2", players=("I", "I"), server=server)
            self.opened(certificate, "c3.cert")
            self.soon("5,c3", self.link)
            browser.ready()
            while browser.text("#state") == "Your turn (White)":
                self.assertIn("Black", browser.text("#words .proved"))
                browser.cell(browser.vertices("[data-vertex]:not(:has(.stone))")[-1])
            self.soon("hexd has won (Black).", self.words("#state"))
            browser.driver.get("about:blank")

    def test_links(self):
        browser = self.start("5,+b-c3,+w-b3,+b-e5,w-a1,a2")
        self.soon("5,+b-c3,+w-b3,+b-e5,w-a1,a2", self.link)
        self.soon(5, self.marks(".stone"))
        sent = browser.find("#link").get_attribute("value")
        self.assertNotIn(self.server.token, sent)
        browser.click("#new")
        self.soon([], self.moves)
        self.enter(sent)
        self.soon("5,+b-c3,+w-b3,+b-e5,w-a1,a2", self.link)
        for wrong in ("5,c3,c3", "12,a1", "5,z9", "nothing", "100%", "%", "5,%41"):
            self.enter(wrong)
            until(lambda: browser.text("#said").startswith("hexd: "), f"{wrong} is refused")
            browser.ready()
            self.browser.faults()
            browser.click("#back")
            browser.click("#end")
        self.soon(2, lambda: len(self.moves()))

    def test_what_the_box_takes(self):
        browser = self.start("6,a1")
        for text, link in (
            (" ", "6,a1"),
            ("B2 c3", "6,b2,c3"),
            ("1. A3 2. swap-pieces 3. d4", "6,a3,swap,d4"),
            ("11,A3,swap,F6", "11,a3,swap,f6"),
            ("11 a3b4c5", "11,a3,b4,c5"),
            ("https://hexworld.org/board/#9c1,a3:sf6", "9,a3,swap,f6"),
            ("https://hexworld.org/board/#9,a3b4,c5d6", "9,a3,b4,c5,d6,@2"),
            ("https://hexworld.org/board/#9,a3:pb4,c5:p", "9,a3,b-b4,c5,@2"),
            ("https://hexworld.org/board/#9,a3b4:rb", "9,a3,b4"),
            ("7,a3,swap,b2,@1", "7,a3,swap,b2,@1"),
            ("(;SZ[4];B[b2];W[c3])", "4,b2,c3"),
        ):
            with self.subTest(text=text):
                self.enter(text)
                self.soon(link, self.link)

    def test_passes_and_ends_of_hexworld(self):
        """A pass is left out, and a resignation ends the game; both are told, and a copied link has the end."""
        browser = self.start("6")
        link = "https://hexworld.org/board/#9,a3b4c5:rw"
        for text, state, said in (
            (link, "Black has won: White resigns.", "White resigns at move 4."),
            ("https://hexworld.org/board/#9,a3,b4:fb", "Your turn (White)", "Black resigns at move 3."),
            ("https://hexworld.org/board/#9,:pa3", "Your turn (Black)",
             "Move 1 is a pass of Black's, which Hex hasn't: it is left out."),
        ):
            with self.subTest(text=text):
                self.enter(text)
                self.soon(state, self.words("#state"))
                self.soon(said, self.words("#said"))
        self.enter(link)
        browser.click("#copy-hexworld")
        self.soon(link, lambda: browser.find("#link").get_attribute("value"))

    def test_stones_that_are_set_again_and_again(self):
        """What a record costs grows with its length alone."""
        browser = self.start("3")
        script = """
            let calls = 0;
            const plain = cellOf;
            window.cellOf = (...given) => { calls++; return plain(...given); };
            const [stones, nodes, times] = arguments;
            readRecord(`(;SZ[9]AB${stones.repeat(times)};${nodes.repeat(times)};B[a1])`);
            window.cellOf = plain;
            return calls;"""
        for stones, nodes, most in (("[a1]", "AE[b2]", 10), ("[c3]", ";AB[b2];AE[b2]", 10), ("[a1]", "AW[c3]AB[c3][d4]", 15)):
            few, many = (browser.run(script, stones, nodes, times) for times in (100, 200))
            self.assertTrue(0 < many - few <= 100 * most, (nodes, few, many))

    def test_a_record_of_another_program_in_the_box(self):
        self.start("6")
        self.enter("(;SZ[4]AB[A1];B[b2];W[C3])")
        self.soon("4,+b-a1,b2,c3", self.link)
        self.assertTrue(self.browser.all("[data-vertex=c3] .last"))

    def test_copies(self):
        browser = self.start("9,a3,swap,b4,c5,@2")
        value = lambda: browser.find("#link").get_attribute("value")  # noqa: E731
        browser.click("#copy-moves")
        self.soon("a3 swap b4 c5", value)
        browser.click("#copy-hexworld")
        self.soon("https://hexworld.org/board/#9,a3:s,b4c5", value)
        browser.click("#copy")
        self.soon(f"http://127.0.0.1:{self.server.port}/#9,a3,swap,b4,c5,@2", value)

    def test_pictures(self):
        browser = self.start("3,b2,a1")
        browser.click("#svg")
        drawn = browser.saved("hexd-board.svg").decode()
        self.assertNotIn("class=", drawn)
        self.assertEqual(2, drawn.count("<circle") - drawn.count('r="4.4"'))
        browser.click("#png")
        self.assertTrue(browser.saved("hexd-board.png").startswith(b"\x89PNG\r\n\x1a\n"))
