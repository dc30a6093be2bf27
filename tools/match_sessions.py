#!/usr/bin/env python3
"""Plays the games of a match by two sessions of `hexd htp` each, and compares their records with those of `hexmatch`.

A side's session has the side's options and its seed of the game, and takes the other side's moves, and the opening, by `play`.
Before each of its own it takes the last stone back and plays it again, since a match keeps no tree of a look-ahead. It looks for
connections exactly if the side has a look-ahead or a solver. It says nothing if the records are the same.
"""

import re
import subprocess
import sys

from programs import ROOT

sys.path.append(str(ROOT / "board"))
from hexd import Engine

SETTINGS = [
    {"size": 4, "games": 4, "seed": 7, "a": {"playouts": 60, "weight": 0}, "b": {"playouts": 200, "expand": 3}},
    {"size": 3, "games": 3, "seed": 2**64 - 1, "a": {"playouts": 30}, "b": {"playouts": 30, "words": 1024}},
    {"size": 5, "games": 4, "seed": 3, "a": {"playouts": 50, "look": 20}, "b": {"playouts": 50, "solve": 200}},
    {"size": 6, "games": 2, "seed": 5, "a": {"playouts": 50, "look": 30, "solve": 100}, "b": {"playouts": 300}},
    {"size": 4, "games": 7, "seed": 9, "opening": "a2,D3,b1", "a": {"playouts": 40}, "b": {"playouts": 90, "look": 20}},
]


def defaults():
    """What a side has by default: the lines of hexmatch's table that have a name for each side."""
    table = (ROOT / "crates" / "match_ref" / "src" / "table.rt").read_text(encoding="utf-8")
    return dict(re.findall(r'^pub const \w+: SideNumber = \("(\w+)-a", "\w+-b", "(\d+)"', table, re.M))


def match_records(setting):
    words = [f"--{name}={setting[name]}" for name in ["size", "games", "seed", "opening"] if name in setting]
    words += [f"--{name}-{side}={value}" for side in "ab" for name, value in setting[side].items()]
    program = [str(ROOT / "bin" / "hexmatch"), *words, "--records=on", "--threads=2"]
    text = subprocess.run(program, capture_output=True, text=True, check=True, timeout=600).stdout
    return re.findall(r"^\(;.*$", text, re.M)


def session(setting, side, game):
    seed = (setting["seed"] + (2 * game + "ab".index(side)) * 2**40) % 2**64
    options = {**defaults(), **setting[side]}
    connected = "on" if int(options["look"]) or int(options["solve"]) else "off"
    words = [f"--{name}={value}" for name, value in options.items()]
    return Engine.start(f"--hsearch={connected}", f"--size={setting['size']}", f"--seed={seed}", *words)


def session_record(setting, game):
    black, white = [session(setting, side, game) for side in ("ab" if game % 2 == 0 else "ba")]
    mover, other, colour, last = black, white, "black", []
    if "opening" in setting:
        # Two games have each opening.
        openings = setting["opening"].split(",")
        last = [f"play black {openings[game // 2 % len(openings)]}"]
        for one in [black, white]:
            one.ask(*last)
        mover, other, colour = white, black, "white"
    while black.ask("winner").text == "none":
        for line in ["undo", *last] if last else []:
            mover.ask(line)
        move = mover.ask(f"genmove {colour}")
        last = [f"play {colour} {move.text}"]
        if not (move.done and other.ask(*last).done):
            return f"game {game}: {colour} {move.text}"
        mover, other, colour = other, mover, "white" if colour == "black" else "black"
    record = black.ask("printsgf").text
    black.close()
    white.close()
    return record


def main():
    for setting in SETTINGS:
        want = [session_record(setting, game) for game in range(setting["games"])]
        got = match_records(setting)
        if got != want:
            print(f"tools/match_sessions.py: {setting}: hexmatch has {got}, two sessions have {want}")
            return 1
    return 0


if __name__ == "__main__":
    sys.exit(main())
