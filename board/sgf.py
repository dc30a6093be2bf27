"""The text of records (SGF): bytes as text, text as a tree of nodes with their properties, and back. It knows no game."""

import re
from dataclasses import dataclass, field

from charsets import codec_of

# A bracket alone is that of a value without an end.
TOKEN = re.compile(r"\[(?:\\.|[^\]\\])*\]|[A-Za-z]+|[();[]", re.DOTALL)


# So much of a value is quoted.
MOST_QUOTED = 60


class Refused(Exception):
    """Why hexd can't play a record, in words."""


def printable(text):
    """A text that others wrote as one line, in which what can't be printed is a question mark."""
    return "".join(character if character.isprintable() else "?" for character in text)


def shown(value):
    """A value as it is quoted to a reader, or in an answer: in one line, and not all of a long one."""
    return printable(value.strip()[:MOST_QUOTED])


@dataclass(slots=True)
class Node:
    """A node: its properties with their values as they stand in the text, and the nodes that follow."""

    properties: dict = field(default_factory=dict)
    children: list = field(default_factory=list)

    def moves(self):
        return [(name, value) for name in "BW" for value in self.properties.get(name, ())] if self.properties else []


def decoded(content):
    """The text of a file: in UTF-8, else in the character set that it names, else with a character for each byte."""
    named = re.search(rb"CA\[([\w.:-]+)\]", content)
    for codec in ("utf-8-sig", named and codec_of(named[1].decode())):
        try:
            if codec:
                return content.decode(codec)
        except UnicodeDecodeError:
            continue
    return content.decode("latin-1")


def tree_of(text):
    """The root of the first tree in a text, how many trees there are, and whether the first one ends.

    Refused where there is none, or one without a property: other files have `(;` too.
    """
    start = re.search(r"\(\s*;", text)
    if not start or "\0" in text:
        raise Refused("it is no record of a game")
    root, node, last, trees = None, None, None, 0
    has_property = is_whole = False
    below = []
    for token in (found[0] for found in TOKEN.finditer(text, start.start())):
        if token == "[":
            break
        if token == "(":
            below.append(node)
            trees += len(below) == 1
        elif token == ")":
            if not below:
                break
            node = below.pop()
            is_whole = is_whole or not below
        elif trees > 1:
            continue
        elif token == ";":
            made = Node()
            root = root or made
            if node:
                node.children.append(made)
            node, last = made, None
        elif token[0] != "[":
            # Small letters of a name don't count, as older records have them, unless all are small.
            last = re.sub("[a-z]", "", token) or token.upper()
        elif node and last:
            node.properties.setdefault(last, []).append(token[1:-1])
            has_property = True
    if not has_property:
        raise Refused("it is no record of a game")
    return root, trees, is_whole


def printed(node):
    """The text of a node and what follows it."""
    parts, left = [], [node]
    while left:
        item = left.pop()
        if isinstance(item, str):
            parts.append(item)
            continue
        parts.append(";")
        for name, values in item.properties.items():
            parts += [name, *(f"[{value}]" for value in values)]
        if len(item.children) == 1:
            left.append(item.children[0])
        else:
            for child in reversed(item.children):
                left += [")", child, "("]
    return f"({''.join(parts)})"
