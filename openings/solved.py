"""The tables of README.md: each opening with its certificate here, and with what `hexd solve` took for it."""

from openings import positions, vertex

HEAD = "board", "openings", "seconds together", "the slowest", "most lines", "most MB"
COLUMNS = "stone", "winner", "file", "positions", "lines", "seconds", "MB"


def table(head, rows):
    """A table in Markdown."""
    return "\n".join(f"| {' | '.join(map(str, row))} |" for row in [head, ["---"] * len(head), *rows]) + "\n"


def by_size(openings):
    """For each size its openings, in the order of their cells."""
    sizes = {}
    for opening in sorted(openings):
        sizes.setdefault(opening.size, []).append(opening)
    return sizes


def summary(size, entries):
    """What the openings of a size took together, and the most that one took."""
    names = ("lines", "seconds", "megabytes")
    lines, seconds, megabytes = (max(getattr(entry, name) for entry in entries) for name in names)
    together = sum(entry.seconds for entry in entries)
    count = f"{len(entries)} of {size**2}"
    return f"{size} by {size}", count, f"{together:.1f}", f"{seconds:.1f}", f"{lines:,}", megabytes


def what_it_shows(opening, known, took):
    """Who wins, with White's answer if he does, and the lines of the certificate here or which opening's half turn it is."""
    if opening in known:
        entry = known[opening]
        return entry.winner if entry.answer == "-" else f"{entry.winner}, by {entry.answer}", f"{entry.lines:,}"
    if opening.turned() in known:
        return known[opening.turned()].winner, f"of {vertex(*opening.turned())}"
    return took.winner, "-"


def what_it_took(entry, entered):
    """What `hexd solve` took, if that was measured."""
    if not entry:
        return ("-",) * 4
    count = f"{entered:,}" if entered else "-"
    return count, f"{entry.lines:,}", f"{entry.seconds:.1f}", entry.megabytes or "-"


def tables(known, measured):
    """The tables, of the certificates that are known and of what was measured."""
    entered, parts = positions(), []
    rows = [summary(size, [measured[one] for one in some]) for size, some in by_size(measured).items()]
    parts.append(table(HEAD, rows))
    for size, some in by_size({*known, *measured}).items():
        rows = []
        for one in some:
            took = measured.get(one)
            rows.append((vertex(*one), *what_it_shows(one, known, took), *what_it_took(took, entered.get(one))))
        parts.append(f"### {size} by {size}\n\n" + table(COLUMNS, rows))
    return "\n".join(parts)
