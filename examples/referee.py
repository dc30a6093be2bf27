#!/usr/bin/env python3
"""Drives `bin/hexd htp` as a referee does: one command at a time, each answer read to its empty line (board/hexd.py)."""

import sys
from pathlib import Path

sys.path.append(str(Path(__file__).resolve().parent.parent / "board"))
from hexd import Engine, EngineEnded


def play(engine):
    """Plays moves until one player is joined."""
    colour, other = "black", "white"
    for vertex in ["b2", "a1", "b1", "c3", "b3", "a3"]:
        answer = engine.ask(f"play {colour} {vertex}")
        print(f"{colour} {vertex}: {'taken' if answer.done else 'refused'}")
        if engine.ask("winner").text != "none":
            break
        colour, other = other, colour
    print(f"winner: {engine.ask('winner').text}")
    print(engine.ask("showboard").text.lstrip("\n"))


def main():
    try:
        with Engine.start("--size", "3") as engine:
            play(engine)
            return engine.close()
    except (EngineEnded, OSError) as why:
        print(f"referee.py: {why}", file=sys.stderr)
        return 1


if __name__ == "__main__":
    sys.exit(main())
