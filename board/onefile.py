"""Pages that need nothing else: style, scripts and data are in them, and their policy lets nothing else run."""

import base64
import hashlib
import json
import string
from pathlib import Path

HERE = Path(__file__).resolve().parent
PAGE = HERE / "page"


def hashed(text):
    """How a policy names an inline text that may run, or be a style."""
    return f"'sha256-{base64.b64encode(hashlib.sha256(text.encode()).digest()).decode()}'"


def page_of(frame, scripts, data, **parts):
    """The text of a page: a frame of this folder, names of scripts of page/, what these read, and parts that are HTML."""
    style = (PAGE / "board.css").read_text()
    script = "".join((PAGE / f"{name}.js").read_text() for name in scripts)
    return string.Template((HERE / frame).read_text()).substitute(
        policy=f"default-src 'none'; style-src {hashed(style)}; script-src {hashed(script)}",
        style=style,
        # In a script element only `</` and `<!--` would end or change the text.
        game=json.dumps(data, separators=(",", ":")).replace("<", "\\u003c"),
        script=script,
        **parts,
    )
