"""The commands that bin/hexd-gtp answers itself (docs/use/OTHER-PROGRAMS.md), by what hexd answers.
There is no rule of the game here. gtp/filter.py hands hexd all else."""

import resource

import limits
import settings
from analysis import Analysis, Wanted
from engine import Engine, Refused, beside, time_of
from forms import COLOURS, is_colour, is_number, needs, needs_forms
from shown import Shown
from solve import DEFAULT, budgets
from troubles import say

LARGEST_SEED = 2**64 - 1
# What param_hexd says and sets, with the least and the most of each number.
PARAMETERS = {b"strength": None, b"seconds": (0, 3_600), b"nodes": (0, 1_000_000), b"seed": (0, LARGEST_SEED), b"workers": (1, 64)}
# Seconds, of which controllers send parts too; and how many moves or periods there are.
SECONDS, COUNT = rb"[0-9]{1,10}(?:\.[0-9]{1,10})?", rb"[0-9]{1,10}"
# What follows each word of kgs-time_settings.
KGS_NUMBERS = {b"none": [], b"absolute": [SECONDS], b"byoyomi": [SECONDS, SECONDS, COUNT], b"canadian": [SECONDS, SECONDS, COUNT]}


class Session(Shown):
    """hexd with all commands of the filter."""

    def komi(self, request):
        """Hex has none."""
        needs_forms(request.args, rb"-?[0-9]+(\.[0-9]+)?")
        return b""

    def keep_time(self, *settings, **how):
        """Keeps time. Who does must be able to start another hexd."""
        if self.words.strength and self.has_trace():
            raise Refused(b"cannot keep time beside --trace")
        self.clock.set(*settings, **how)
        self.measure()
        return b""

    def time_settings(self, request):
        """Main time, and behind it periods for so many moves each; without moves a period says that there is no limit."""
        needs_forms(request.args, SECONDS, SECONDS, COUNT)
        main, period, moves = request.args
        return self.keep_time(float(main), float(period), int(moves))

    def kgs_time_settings(self, request):
        """The same, by the name of a system."""
        kind = request.args[0].lower() if request.args else None
        needs(kind in KGS_NUMBERS)
        needs_forms(request.args[1:], *KGS_NUMBERS[kind])
        numbers = [float(word) for word in request.args[1:]]
        if kind == b"byoyomi":
            # Its last number is how often the period comes again.
            return self.keep_time(numbers[0], numbers[1], 1, each=True)
        return self.keep_time(*numbers[:2], *map(int, numbers[2:])) if numbers else self.keep_time(0, 1, 0)

    def time_left(self, request):
        """Seconds of a player's main time if the moves are 0, else of a period for so many moves."""
        needs_forms(request.args, rb"\w+", SECONDS, COUNT)
        needs(is_colour(request.args[0]))
        self.clock.tell(COLOURS[request.args[0].lower()], float(request.args[1]), int(request.args[2]))
        return b""

    def cputime(self, request):
        """The processor's time of hexd so far, in seconds: of those that run, and of those that have ended."""
        needs(not request.args)
        ended = resource.getrusage(resource.RUSAGE_CHILDREN)
        return b"%.2f" % (ended.ru_utime + ended.ru_stime + sum(map(time_of, Engine.running)))

    def analyze(self, request):
        """What is found of the moves of a player, or of who is to move, deeper and deeper."""
        args = list(request.args)
        colour = COLOURS[args.pop(0).lower()] if args and is_colour(args[0]) else self.to_move()
        wanted = Wanted.of(request.name, colour, args)
        if self.is_over():
            raise Refused(b"game over")
        return Analysis(self.words, wanted, self.hexd.ask(b"printsgf"))

    def set_random_seed(self, request):
        """From now on the session has another seed."""
        needs(len(request.args) == 1 and is_number(request.args[0], LARGEST_SEED))
        if self.has_trace():
            raise Refused(b"cannot set the seed beside --trace")
        self.change(self.words.having("seed", request.args[0].decode()))
        return b""

    def param_hexd(self, request):
        """How hexd plays, as Benzene's programs say it: all, or one of them that is set."""
        if not request.args:
            return b"\n".join(self.parameter(name) for name in PARAMETERS)
        needs(len(request.args) == 2 and request.args[0] in PARAMETERS)
        name, value = request.args
        if name == b"strength":
            needs(value.decode(errors="replace") in settings.TABLE["strengths"])
        else:
            low, high = PARAMETERS[name]
            needs(is_number(value, high) and int(value) >= low)
        if self.has_trace():
            raise Refused(b"cannot set this beside --trace")
        self.change(self.words.with_parameter(name.decode(), value.decode()))
        return b""

    def parameter(self, name):
        """A parameter's line: its kind, its name and its value."""
        if name == b"strength":
            return f"[list/{'/'.join(settings.TABLE['strengths'])}] strength {self.words.strength or 'none'}".encode()
        options = {**self.given, **self.words.options}
        values = {
            b"seconds": self.words.seconds or 0,
            b"nodes": options.get("look", 0),
            b"seed": options.get("seed", 0),
            b"workers": options.get("workers", 1),
        }
        return b"[string] %s %s" % (name, str(values[name]).encode())

    def solve_state(self, request):
        """Who wins the position, by `hexd solve` with growing budgets; what each came to stands on standard error."""
        needs(not request.args or len(request.args) == 1 and is_colour(request.args[0]))
        if request.args and COLOURS[request.args[0].lower()] != self.to_move():
            raise Refused(b"not to move")
        winner, record = self.hexd.ask(b"winner"), self.hexd.ask(b"printsgf")
        if winner != b"none":
            return winner
        for budget in budgets(DEFAULT):
            words = ["solve", f"--budget={budget}", f"--hsearch={self.words.value('hsearch') or 'on'}"]
            said = beside(words, record, limits.of_solver(budget)).partition(b"\n")[0].split(b" ")
            say(f"hexd-gtp: solve-state: {b' '.join(said).decode()}, with up to {budget} positions")
            if said[0] == b"won":
                return said[1]
        return b"unknown"

    def known_command(self, request):
        return b"true" if len(request.args) == 1 and request.args[0] in OWN else None

    def list_commands(self, request):
        if request.args:
            return None
        names = self.hexd.ask(b"list_commands").split(b"\n")
        return b"\n".join(names + [name for name in OWN if name not in names])

    def help(self, request):
        """The same list."""
        needs(not request.args)
        return self.list_commands(request)


OWN = {
    b"all_legal_moves": Session.all_legal_moves,
    b"cputime": Session.cputime,
    b"final_score": Session.final_score,
    b"genmove": Session.genmove,
    b"gogui-analyze_commands": Session.analyze_commands,
    b"gogui-play_sequence": Session.play_sequence,
    b"help": Session.help,
    b"hexd-analyze": Session.analyze,
    b"hexd-look_json": Session.look_json,
    b"hexd-main_line": Session.main_line,
    b"hexgui-analyze_commands": Session.analyze_commands,
    b"kgs-time_settings": Session.kgs_time_settings,
    b"is_legal": Session.is_legal,
    b"kata-analyze": Session.analyze,
    b"komi": Session.komi,
    b"look-worths": Session.look_worths,
    b"lz-analyze": Session.analyze,
    b"mustplay-cells": Session.mustplay_cells,
    b"param_hexd": Session.param_hexd,
    b"reg_genmove": Session.reg_genmove,
    b"savesgf": Session.savesgf,
    b"search-visits": Session.search_visits,
    b"set_position": Session.set_position,
    b"set_random_seed": Session.set_random_seed,
    b"solve-state": Session.solve_state,
    b"threat-cells": Session.threat_cells,
    b"time_left": Session.time_left,
    b"time_settings": Session.time_settings,
    b"wincert-cells": Session.wincert_cells,
    b"known_command": Session.known_command,
    b"list_commands": Session.list_commands,
    b"loadsgf": Session.loadsgf,
    b"play": Session.play,
    b"undo": Session.undo,
}
