"""A page that draws a certificate: its board, who wins, and each line of the derivation."""

import html

import limits
import onefile
from sgf import Refused

FRAME = "certificate.html"
SCRIPTS = ["elements", "cells", "board", "certificate", "choices", "sheet"]
FIRST = b"hexcert "
# How a file begins that xz has packed, as those of openings/ are; and the most bytes that `hexd check` takes.
PACKED, MOST_BYTES = b"\xfd7zXZ\0", 67_108_864


def unpacked(content):
    """The bytes of a file, unpacked if xz has packed them; else Refused."""
    if not content.startswith(PACKED):
        return content
    try:
        import lzma
    except ImportError:
        raise Refused("it is packed by xz, and this python3 has no lzma") from None
    try:
        return lzma.LZMADecompressor().decompress(content, MOST_BYTES)
    except lzma.LZMAError as why:
        raise Refused(f"it is packed by xz, and damaged: {why}") from None


def is_one(content):
    """Whether the bytes of a file are meant as a certificate."""
    return content.startswith(FIRST)


def told(content, program):
    """A certificate that a process of the program accepts, with what that says; else Refused."""
    text = content.replace(b"\r\n", b"\n").rstrip() + b"\n"
    checked = limits.check(text, program)
    if not checked.startswith("yes"):
        raise Refused(f"hexd check refuses it: {checked}")
    return {"certificate": text.decode(), "checked": checked}


def page_of(told, name):
    """The page of a certificate with what was said of it."""
    return onefile.page_of(FRAME, SCRIPTS, told, title=html.escape(name))
