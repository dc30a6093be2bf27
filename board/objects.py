"""What hexd says in texts as objects for JSON, for `--json` and for `hexd-look_json` (docs/use/OTHER-PROGRAMS.md, "JSON"). Keys
are only ever added."""

import json

COLOURS = {"b": "black", "w": "white"}
# The first lines of `hexd solve` of more than a word.
ANSWERS = ("too long", "not a game")


def line_of(value):
    """An object as a line of JSON."""
    return json.dumps(value, ensure_ascii=False, separators=(",", ":"))


def solved(said, budget, is_stopped):
    """What `hexd solve` says with this budget; `said` is empty if it was stopped before it said anything."""
    first, _, certificate = said.partition("\n")
    answer = next((it for it in ANSWERS if first.startswith(it)), first.partition(" ")[0])
    rest = first[len(answer) :].split()
    return {
        "answer": answer or None,
        "winner": next((word for word in rest if word in COLOURS.values()), None),
        "budget": budget,
        "lines": int(rest[1]) if answer == "too long" else None,
        "certificate": certificate or None,
        "stopped": is_stopped,
    }


def planned(mustplay):
    """What `mustplay` says: the plan, the cells that it allows, and those of each threat."""
    rows = [line.split() for line in (mustplay or "").splitlines()]
    plan = {"win": "win", "lost": "lost" if rows[:1] == [["lost", "yes"]] else "search"}.get(rows[0][0]) if rows else None
    cells_of = {name: [row[1:] for row in rows if row[0] == name] for name in ("win", "allowed", "threat")}
    return {"plan": plan, "allowed": sum(cells_of["win"] + cells_of["allowed"], []), "threats": cells_of["threat"]}


def searched(report):
    """The visits and the wins of each cell of `search-report`."""
    rows = [line.split() for line in (report or "").splitlines()[1:]]
    return {cell: {"visits": int(visits), "wins": int(wins)} for cell, visits, wins in rows}


def looked(move, report):
    """What `look-report` says."""
    head, *rows = [line.split() for line in report.splitlines()]
    return {"move": move, "nodes": int(head[1]), "cells": [looked_cell(*row) for row in rows]}


def looked_cell(cell, walks, worth, *more):
    """A row of it; of a cell without a walk nothing is known."""
    return {
        "cell": cell,
        "walks": int(walks),
        "worth": int(worth) if walks != "0" else None,
        "proved": more[0] if more and more[0] in ("won", "lost") else None,
        "line": list(more[more.index("line") + 1 :]) if "line" in more else [],
    }


def position(told):
    """A position of a report."""
    thought, step = told["thought"] or {}, told["step"]
    certificate = thought.get("certificate")
    return {
        **{name: [cell for cell, colour in told["stones"] if colour == name[0]] for name in COLOURS.values()},
        "to_move": COLOURS.get(thought.get("mover")),
        "winner": COLOURS.get(told["winner"]),
        "solved": COLOURS.get(told["solved"]),
        "best": thought.get("cell"),
        **planned(thought.get("mustplay")),
        "search": searched(thought.get("report")),
        "certificate": certificate and f"{certificate}\n",
        "checked": thought.get("checked"),
        "may_swap": thought.get("swap", False),
        "played": step and {"colour": COLOURS[step["colour"]], "move": step["move"]},
    }


def report(told):
    """A report of a game."""
    opening = COLOURS.get(told["opening"])
    positions = [position(it) for it in told["positions"]]
    return {"name": told["name"], "size": told["size"], "notes": told["notes"], "opening": opening, "positions": positions}
