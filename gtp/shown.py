"""What hexd has found, in the forms of the menus of board programs, and as JSON."""

import re

import objects
from engine import Refused
from forms import LARGEST_COUNT, OTHER, is_number, needs, place_of
from game import Game

# The lines of a certificate's head, of which the last ones have the stones.
STONES_END = 5
# How many moves a main line has if it isn't said.
LINE = 6
# The form of HexGui and GoGui: how an answer is shown, the menu's entry, the command. `plist` is cells in a row, `pspairs`
# each of them with a word, `varc` a move, and `var` moves with their colours; `%c` is the colour to move.
ANALYZE_COMMANDS = b"""\
string/Winner/winner
plist/Legal moves/all_legal_moves
varc/Move without playing it/reg_genmove %c
var/Main line/hexd-main_line
pspairs/Visits/search-visits
pspairs/Worths/look-worths
plist/Mustplay cells/mustplay-cells
plist/Cells of threats/threat-cells
plist/Cells of the certificate/wincert-cells
param/Parameters/param_hexd
string/Who wins/solve-state
string/Search report/search-report
string/Look-ahead as JSON/hexd-look_json
string/Mustplay/mustplay
string/Certificate/wincert"""


def shown_worth(walks, worth, *more):
    """What is shown of a cell's row in a look-report: each cell without a walk has the same number there."""
    if more and more[0] in (b"won", b"lost"):
        return more[0]
    return worth if walks != b"0" else b"-"


class Shown(Game):
    """A game whose searches are shown."""

    def search_visits(self, request):
        """The cells that were searched, each with its visits; if a look-ahead chose, with the walks by it."""
        needs(not request.args)
        rows = self.rows_of(b"look-report") or self.rows_of(b"search-report")
        if not rows:
            raise Refused(b"no search")
        return b" ".join(b"%s %s" % (row[0], row[1]) for row in rows if row[1] != b"0")

    def look_worths(self, request):
        """The cells that might be chosen, each with its worth; of one without a walk nothing is known."""
        needs(not request.args)
        rows = self.rows_of(b"look-report")
        if not rows:
            raise Refused(b"no look")
        return b" ".join(b"%s %s" % (row[0], shown_worth(*row[1:])) for row in rows)

    def mustplay_cells(self, request):
        """The cells among which was searched, or the one that wins."""
        needs(not request.args)
        rows = [line.split() for line in self.hexd.ask(b"mustplay").splitlines()]
        return b" ".join(next(row[1:] for row in rows if row[0] in (b"win", b"allowed")))

    def threat_cells(self, request):
        """The cells of a threat, by its number in `mustplay`, or of all of them."""
        needs(not request.args or len(request.args) == 1 and is_number(request.args[0], LARGEST_COUNT))
        threats = [line.split()[1:] for line in self.hexd.ask(b"mustplay").splitlines() if line.startswith(b"threat")]
        if request.args:
            number = int(request.args[0])
            if not 1 <= number <= len(threats):
                raise Refused(b"no such threat")
            return b" ".join(threats[number - 1])
        return b" ".join(sorted({cell for threat in threats for cell in threat}, key=place_of))

    def wincert_cells(self, request):
        """The cells of the certificate: those that its lines name, without the stones of the board."""
        needs(not request.args)
        lines = self.hexd.ask(b"wincert").splitlines()[STONES_END:]
        return b" ".join(sorted({cell for line in lines for cell in re.findall(rb"\b[a-k][0-9]+\b", line)}, key=place_of))

    def look_json(self, request):
        """What the look-ahead of the last move found, as one line of JSON."""
        needs(not request.args)
        report = self.hexd.ask(b"look-report").decode()
        # With a look-ahead the search has its cell alone.
        [chosen] = self.rows_of(b"search-report")
        return objects.line_of(objects.looked(chosen[0].decode(), report)).encode()

    def main_line(self, request):
        """The moves that hexd makes for both players from here on, by the strength; another hexd does, beside the game's."""
        needs(not request.args or len(request.args) == 1 and is_number(request.args[0], LARGEST_COUNT))
        if self.is_over():
            raise Refused(b"game over")
        colour, record, moves = self.to_move(), self.hexd.ask(b"printsgf"), []
        self.learn_size()
        beside = self.beside(self.options_of_strength())
        try:
            beside.load_text(record)
            while len(moves) < int((request.args or [LINE])[0]) and (cell := beside.tell(b"genmove %s" % colour)):
                moves += [b"%s %s" % (colour.lower(), cell)]
                colour = OTHER[colour]
        finally:
            beside.close()
        return b" ".join(moves)

    def analyze_commands(self, request):
        needs(not request.args)
        return ANALYZE_COMMANDS
