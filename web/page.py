#!/usr/bin/env python3
"""Writes hexd.html, the board of board/page with hexd in it: one file that a browser opens from a disk or from any host.

    page.py [--module FILE] [OUT]    OUT is web/out/hexd.html if it isn't named
    page.py --compare FILE           whether FILE is what its sources make; the status is 1 if it isn't

Without --module it makes the module anew (build.py). The page names the sum of its sources and the kit: if these are others,
it isn't compared, which is said. The board's files stand in it as they are, and those of SESSION in the place of its
session.js. It makes no request: a policy in the file forbids it, and lets only its own scripts run.
"""

import argparse
import base64
import csv
import gzip
import hashlib
import json
import lzma
import re
import sys
import tempfile
from collections import Counter
from pathlib import Path

import build

HERE = Path(__file__).resolve().parent
ROOT = HERE.parent
BOARD = ROOT / "board" / "page"
OPENINGS = ROOT / "openings"
# How strongly hexd plays, and what is guessed of openings, for the board too.
SETTINGS, GUESSED = ROOT / "board" / "settings.json", ROOT / "board" / "guessed.json"
# What stands in the place of the board's session.js.
SESSION = [HERE / name for name in ("run.js", "openings.js", "session.js")]
# The certificates of these sizes are small, and stand in the page; of the others it has the files' names and sums.
SIZES = "345"
# Who wins each opening, of whose certificate it is told.
LIST = OPENINGS / "openings.tsv"
TRIED = "Chromium 156 and Firefox 153"
SAID = "What hexd answers is proved; this page, which draws it, is not."
SAID_HERE = "hexd runs in this page. Its code is proved; how WebAssembly runs it, and the page, are tested alone."
# Elements with bytes packed by gzip, whose versions pack in different ways.
PACKED = re.compile(r'(?<=data-packed>)[^<]*')


def packed(content):
    return base64.b64encode(gzip.compress(content, 9, mtime=0)).decode()


def unpacked(text):
    return gzip.decompress(base64.b64decode(text))


def hash_of(text):
    """How a policy names a script or a style."""
    return f"'sha256-{base64.b64encode(hashlib.sha256(text.encode()).digest()).decode()}'"


def settings(started):
    """What the page's scripts read of the settings; `started` are options that stand before the table's default."""
    table, guessed = (json.loads(file.read_text()) for file in (SETTINGS, GUESSED))
    return json.dumps({"table": table, "guessed": guessed, "started": started})


def certificates():
    """The files of the openings of small boards."""
    return sorted(file for size in SIZES for file in OPENINGS.glob(f"{size}-*.cert.xz"))


def openings():
    """The certificates of small boards, by size and cell."""
    return {file.name.removesuffix(".cert.xz"): lzma.decompress(file.read_bytes()).decode() for file in certificates()}


def sum_of(file):
    return hashlib.sha256(file.read_bytes()).hexdigest()


def listed():
    """Of the openings whose certificates aren't in the page, by size and cell: who wins, and the sum of the file."""
    with open(LIST, newline="") as file:
        winners = {row["opening"]: row["winner"] for row in csv.DictReader(file, delimiter="\t")}
    return {name: [winner, sum_of(OPENINGS / f"{name}.cert.xz")] for name, winner in winners.items() if name[0] not in SIZES}


def sources():
    """The sum of the names and the contents of all that the page is made of."""
    sum_of_all = hashlib.sha256()
    own = [*SESSION, HERE / "worker.js", HERE / "page.py", LIST, *OPENINGS.glob("*.cert.xz")]
    for file in sorted({*build.sources(), *own, *BOARD.iterdir(), SETTINGS, GUESSED}):
        sum_of_all.update(f"{file.relative_to(ROOT)} {sum_of(file)}\n".encode())
    return sum_of_all.hexdigest()


def scripts_of(page):
    """The page without its scripts, and their texts."""
    pattern = re.compile(r'<script src="([^"]+)" defer></script>\n')
    files = [file for name in pattern.findall(page) for file in (SESSION if name == "session.js" else [BOARD / name])]
    texts = [file.read_text() for file in files]
    assert not any("</script" in text for text in texts)
    return pattern.sub("", page), texts


def policy(scripts, style):
    rules = {
        "default-src": ["'none'"],
        "script-src": [*map(hash_of, scripts), "'wasm-unsafe-eval'"],
        "style-src": [hash_of(style)],
        "worker-src": ["blob:"],
        "img-src": ["blob:", "data:"],
        "base-uri": ["'none'"],
        "form-action": ["'none'"],
    }
    return "; ".join(" ".join([name, *values]) for name, values in rules.items())


def put(text, old, new):
    """The text with `old`, which is there once, replaced."""
    assert text.count(old) == 1, old
    return text.replace(old, new)


def twice(text):
    """The ids that two elements of a page have: of these the page would find the first one alone."""
    elements = re.sub(r"(<script[^>]*>).*?</script>", r"\1", text, flags=re.DOTALL)
    return [name for name, count in Counter(re.findall(r'<[^>]* id="([^"]*)"', elements)).items() if count > 1]


def page(module):
    """The text of the file."""
    text, scripts = scripts_of((BOARD / "index.html").read_text())
    style = (BOARD / "board.css").read_text()
    icon = base64.b64encode((BOARD / "icon.svg").read_bytes()).decode()
    text = put(text, '<link rel="stylesheet" href="board.css">', f"<style>{style}</style>")
    text = put(text, 'href="icon.svg"', f'href="data:image/svg+xml;base64,{icon}"')
    text = put(text, SAID, SAID_HERE)
    rules = f'<meta http-equiv="Content-Security-Policy" content="{policy(scripts, style)}">\n'
    text = put(text, "<title>", f"{rules}<title>")
    said = {"tried": TRIED, "sources": sources(), "kit": build.kit_said()}
    words = " ".join(f'data-{name}="{value}"' for name, value in said.items())
    parts = [
        f'<script type="text/plain" id="worker">{(HERE / "worker.js").read_text()}</script>',
        f'<script type="text/plain" id="hexd" {words} data-packed>{packed(module)}</script>',
        f'<script type="text/plain" id="openings" data-packed>{packed(json.dumps(openings()).encode())}</script>',
        f'<script type="application/json" id="listed">{json.dumps(listed())}</script>',
        f'<script type="application/json" id="given">{settings(None)}</script>',
        *(f"<script>{script}</script>" for script in scripts),
    ]
    made = put(text, "</body>", "\n".join([*parts, "</body>"]))
    assert not twice(made), f"two elements have one id: {twice(made)}"
    return made


def content(text):
    """The page with what is packed in it in words that don't depend on how it was packed."""
    return PACKED.sub(lambda found: hashlib.sha256(unpacked(found[0])).hexdigest(), text)


def module_of(file):
    """The module's bytes, made anew if no file is named."""
    if file:
        return file.read_bytes()
    with tempfile.TemporaryDirectory(prefix="hexd-page-") as folder:
        made = Path(folder) / "hexd.wasm"
        build.build(made)
        return made.read_bytes()


def said_in(shipped):
    """What a page says of how it was made."""
    return dict(re.findall(r'data-(sources|kit)="([^"]*)"', shipped))


def is_of_others(shipped):
    """Whether a page is of other sources or another kit than are here, which is said."""
    said = said_in(shipped)
    for name, here in (("sources", sources()), ("kit", build.kit_said())):
        if here and said.get(name) != here:
            print(f"web: the page is of other {name} ({said.get(name)})", file=sys.stderr)
            return True
    return False


def what_changed(before, made):
    """What is other in a page that was made than in the one that was there, in words."""
    if not before:
        return "new"
    if content(before) == content(made):
        return "as before"
    old, new = said_in(before), said_in(made)
    other = [name for name in ("sources", "kit") if old.get(name) != new.get(name)]
    return f"other {', '.join(other)}" if other else "changed, of the same sources"


def is_same(shipped, module):
    """Whether a shipped page is what its sources make; if they aren't those of the tree there is nothing to compare."""
    return is_of_others(shipped) or content(shipped) == content(page(module_of(module)))


def main():
    parser = argparse.ArgumentParser(prog="web/page.py")
    parser.add_argument("--module", type=Path, metavar="FILE")
    parser.add_argument("--compare", type=Path, metavar="FILE")
    parser.add_argument("out", type=Path, nargs="?", default=HERE / "out" / "hexd.html", metavar="OUT")
    options = parser.parse_args()
    try:
        if not options.compare:
            made = page(module_of(options.module))
            before = options.out.read_text() if options.out.exists() else ""
            options.out.parent.mkdir(parents=True, exist_ok=True)
            options.out.write_text(made)
            print(f"{options.out}: {what_changed(before, made)}")
        elif not is_same(options.compare.read_text(), options.module):
            raise build.Refused(f"{options.compare} is not what its sources make")
    except (build.Refused, OSError) as fault:
        print(f"web/page.py: {fault}", file=sys.stderr)
        return 1
    return 0


if __name__ == "__main__":
    sys.exit(main())
