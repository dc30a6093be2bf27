#!/usr/bin/env python3
"""Writes hexd.wasm, the module of hexd that is in a page, for programs in JavaScript (hexd.mjs). Nothing is built.

    module.py [PAGE] [OUT]    PAGE is release/hexd.html, and OUT web/out/hexd.wasm, if they aren't named
"""

import re
import sys
from pathlib import Path

import page
import tables

PAGE, OUT = page.ROOT / "release" / "hexd.html", page.HERE / "out" / "hexd.wasm"
# How a module of WebAssembly begins.
MAGIC = b"\0asm\1\0\0\0"


def module_in(text):
    """The bytes of the module in the text of a page; none if it has none."""
    found = re.search(r'<script type="text/plain" id="hexd"[^>]* data-packed>([^<]*)<', text)
    return page.unpacked(found[1]) if found else b""


def main():
    source, out = [*map(Path, sys.argv[1:]), *[PAGE, OUT][len(sys.argv) - 1 :]][:2]
    try:
        module = module_in(source.read_text())
        if not module.startswith(MAGIC):
            raise ValueError(f"{source} has no module of hexd")
        out.parent.mkdir(parents=True, exist_ok=True)
        out.write_bytes(tables.narrowed(module))
    except (OSError, ValueError, EOFError) as fault:
        print(f"web/module.py: {fault}", file=sys.stderr)
        return 1
    return 0


if __name__ == "__main__":
    sys.exit(main())
