#!/usr/bin/env python3
"""hexd plays games against itself, and a second process checks each certificate.

    examples/selfplay.py [SIZE [PLAYOUTS [MOVES [FOLDER [WORD..]]]]]

The size is 11 and the playouts are 10,000 if they aren't said. It plays to the end of the first game, or game after
game in one session until so many MOVES were made. After each `genmove` it asks `wincert`: if the move was certified, or
the board is lost, the certificate is kept in FOLDER, or in one that is thrown away, and `bin/hexd check` has to say yes
of it, for this board, and of a loss that the other player wins. Further words go to hexd, as `--hsearch off`.

It prints each move, and then on standard error how many moves and certificates there were, how long a move took, and the
memory that the session held after its first move and after its last. It ends with 1 if a certificate is refused.
"""

import argparse
import sys
import tempfile
import time
from pathlib import Path

sys.path.append(str(Path(__file__).resolve().parent.parent / "board"))
from hexd import Engine, EngineEnded, check

COLOURS = ("black", "white")


def memory_of(process):
    """The memory that a process holds, in MiB."""
    for line in Path(f"/proc/{process.pid}/status").read_text().splitlines():
        if line.startswith("VmRSS:"):
            return int(line.split()[1]) / 1024
    return 0.0


def stones_of(picture):
    """The vertices of the stones in an answer of `showboard`, in rising order of cells, for each colour."""
    found = {"B": [], "W": []}
    for line in picture.splitlines()[2:]:
        row, *cells = line.split()
        for column, cell in enumerate(cells):
            if cell in found:
                found[cell].append("abcdefghijk"[column] + row)
    return found["B"], found["W"]


def winner_of(certificate):
    """The player that a certificate says wins."""
    return certificate.splitlines()[2].removeprefix("player ")


def fault_of(certificate, size, stones, colour):
    """What is wrong with a certificate, if anything: its board, or that a second process refuses it or what it claims."""
    head = [f"size {size}", f"player {winner_of(certificate)}"]
    head += [" ".join([name, *cells]) for name, cells in zip(COLOURS, stones)]
    if certificate.splitlines()[1 : 1 + len(head)] != head:
        return "it is of another board"
    said = check(certificate.encode())
    good = ("yes full", "yes semi") if winner_of(certificate) == colour else ("yes full",)
    return None if said in good else f"hexd check says {said!r}"


class Games:
    """Games in one session, with what came of them."""

    def __init__(self, size, playouts, folder, words):
        self.size, self.folder = size, Path(folder)
        self.engine = Engine.start("--size", size, "--playouts", playouts, *words)
        self.seconds, self.certified, self.memory = [], 0, []

    def move(self, colour):
        """Makes a move; False if its certificate is refused."""
        stones = stones_of(self.engine.ask("showboard").text)
        begun = time.monotonic()
        move = self.engine.ask(f"genmove {colour}")
        self.seconds.append(time.monotonic() - begun)
        self.memory.append(memory_of(self.engine.process))
        if not move.done:
            print(f"{colour}: {move.text}")
            return False
        certificate = self.engine.ask("wincert")
        # An answer ends with one line feed less than the certificate has.
        text = certificate.text + "\n"
        if not certificate.done:
            print(f"{colour} {move.text}")
            return True
        print(f"{colour} {move.text}, {'certified' if winner_of(text) == colour else 'lost'}")
        self.certified += 1
        (self.folder / f"{len(self.seconds)}.cert").write_text(text)
        fault = fault_of(text, self.size, stones, colour)
        if fault:
            print(f"the certificate of move {len(self.seconds)} is refused: {fault}")
        return fault is None

    def play(self):
        """Plays a game to its end; False if a move fails."""
        self.engine.ask("clear_board")
        turn = 0
        while self.engine.ask("winner").text == "none":
            if not self.move(COLOURS[turn % 2]):
                return False
            turn += 1
        print(f"winner: {self.engine.ask('winner').text}")
        return True

    def report(self):
        """Says on standard error what the games took."""
        moves = len(self.seconds)
        print(
            f"{moves} moves, {sum(self.seconds) / moves:.3f} s each, {max(self.seconds):.3f} s the slowest",
            f"{self.certified} of them with a certificate that a second process accepts",
            f"memory: {self.memory[0]:.1f} MiB after the first move, {self.memory[-1]:.1f} MiB after the last",
            sep="\n",
            file=sys.stderr,
        )


def number(most):
    """The reader of a number from 1 to this one."""

    def read(word):
        if not word.isascii() or not word.isdigit() or not 1 <= int(word) <= most:
            raise argparse.ArgumentTypeError(f"{word!r} is no number from 1 to {most:,}")
        return int(word)

    return read


def folder(word):
    if not Path(word).is_dir():
        raise argparse.ArgumentTypeError(f"{word!r} is no folder")
    return word


def words_of(given):
    """The words of the command line; `--help`, and wrong words, end the program."""
    parser = argparse.ArgumentParser(description=__doc__, formatter_class=argparse.RawDescriptionHelpFormatter)
    parser.add_argument("size", metavar="SIZE", nargs="?", type=number(11), default=11)
    parser.add_argument("playouts", metavar="PLAYOUTS", nargs="?", type=number(1_000_000), default=10_000)
    parser.add_argument("moves", metavar="MOVES", nargs="?", type=number(1_000_000), default=1)
    parser.add_argument("folder", metavar="FOLDER", nargs="?", type=folder)
    parser.add_argument("words", metavar="WORD", nargs=argparse.REMAINDER)
    return parser.parse_args(given)


def main():
    words = words_of(sys.argv[1:])
    try:
        with tempfile.TemporaryDirectory() as spare:
            games = Games(str(words.size), str(words.playouts), words.folder or spare, words.words)
            while len(games.seconds) < words.moves:
                if not games.play():
                    return 1
        games.report()
        return games.engine.close()
    except (EngineEnded, OSError) as why:
        print(f"selfplay.py: {why}", file=sys.stderr)
        return getattr(why, "status", None) or 1


if __name__ == "__main__":
    sys.exit(main())
