"""The laws that a program's table of options has the rows of tools/options.txt, as clauses of its file src/laws.rt."""

import re
import textwrap

MOST_COLUMNS = 100
CLAUSES = re.compile(r"(?<=pub fn options_are_those_of_the_manual\(\)\n)(?:    ensures .*\n)*")
IMPORT = re.compile(r"use (crate|super)::table::\{[^}]*\};\n")


def constant_of(row):
    return row.name[2:].removesuffix("-S").upper().replace("-", "_")


def number(word):
    return word.replace(",", "")


def clause(label, *facts):
    """A clause of facts, each of which stands in brackets if they are several."""
    return f"    ensures {label} {{ {' × '.join(f'({fact})' for fact in facts) if len(facts) > 1 else facts[0]} }}\n"


def clauses_of(row):
    """What the law says of a row: the option's name, or both, its default and its range."""
    name, constant = row.name[2:], constant_of(row)
    label = constant.lower()
    default = number(row.default)
    low_and_high = [number(end) for end in row.range.split(" to ")]
    if row.is_of_sides():
        for at, side in enumerate("ab"):
            yield clause(f"{label}_{side}", f'{constant}.{at}.now ≡ codes "{label}-{side}"')
        ends = [f"{constant}.{at} ≡ {end}" for at, end in enumerate(low_and_high, 3)]
        yield clause(label, f'{constant}.2.now ≡ codes "{default}"', *ends)
    elif row.value == "LIST":
        most = re.search(r"\d+", row.range)[0]
        yield clause(label, f'{constant}.0.now ≡ codes "{name}"', f"{constant}.1 ≡ {most}")
    elif row.value == "FILE":
        yield clause(label, f'{constant}.now ≡ codes "{name}"')
    else:
        yield clause(label, f'{constant}.0.now ≡ codes "{name}"', f'{constant}.1.now ≡ codes "{default}"')
        if row.value == "N":
            yield clause(f"{label}_range", *(f"{constant}.{at} ≡ {end}" for at, end in enumerate(low_and_high, 2)))


def import_of(place, options):
    """The line that takes the table's constants, or the lines, as `rt fmt` has them."""
    names = ", ".join(sorted(constant_of(row) for row in options))
    line = f"use {place}::table::{{{names}}};\n"
    if len(line) <= MOST_COLUMNS + 1:
        return line
    return f"use {place}::table::{{\n{textwrap.fill(names + ',', MOST_COLUMNS, initial_indent='    ', subsequent_indent='    ')}\n}};\n"


def laws(text, rows):
    """The text of laws.rt with the clauses of these rows."""
    options = [row for row in rows if row.is_option()]
    text = CLAUSES.sub(lambda _: "".join(line for row in options for line in clauses_of(row)), text, count=1)
    return IMPORT.sub(lambda found: import_of(found[1], options), text, count=1)
