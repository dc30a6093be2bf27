"""The forms of arguments, and the failure of those that have another one."""

import re

from engine import Refused

COLOURS = {b"b": b"B", b"black": b"B", b"w": b"W", b"white": b"W"}
OTHER = {b"B": b"W", b"W": b"B"}
LARGEST_COUNT = 2**31 - 1


def is_number(word, largest):
    return re.fullmatch(rb"[0-9]{1,20}", word) is not None and int(word) <= largest


def is_colour(word):
    return word.lower() in COLOURS


def needs(right):
    if not right:
        raise Refused(b"syntax error")


def needs_forms(args, *forms):
    """That there is an argument for each of these forms, and has it."""
    needs(len(args) == len(forms) and all(map(re.fullmatch, forms, args)))


def place_of(vertex):
    """By what cells are sorted: row by row."""
    return int(vertex[1:]), vertex[:1]
