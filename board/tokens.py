"""The token of a port, kept in a file that only its user may read: a page that is open stays one of the server that is
started anew on its port."""

import os
import re
import secrets
import stat
from pathlib import Path

FORM = re.compile("[A-Za-z0-9_-]{22}")


def made():
    """A new token, of 128 random bits."""
    return secrets.token_urlsafe(16)


def folder():
    """Where tokens are kept, by the rules of freedesktop.org for what lasts from start to start."""
    state = os.environ.get("XDG_STATE_HOME", "")
    return (Path(state) if os.path.isabs(state) else Path.home() / ".local/state") / "hexd"


def kept(port):
    """The token that is kept for a port, or a new one, which is kept; where nothing can be kept it is new each time."""
    try:
        place = folder()
        place.mkdir(mode=0o700, parents=True, exist_ok=True)
        if not is_ours(place.stat(), 0o022):
            return made()
        file = place / f"board-{port}.token"
        return read(file) or keep(file, made())
    except (OSError, RuntimeError):
        return made()


def is_ours(found, others):
    """Whether a file is this user's, and gives others none of these rights."""
    return found.st_uid == os.geteuid() and not found.st_mode & others


def read(file):
    """The token of a file, if nobody else may read or write it."""
    try:
        # A pipe in its place must not hold up the start.
        number = os.open(file, os.O_RDONLY | os.O_NOFOLLOW | os.O_NONBLOCK)
    except OSError:
        return None
    with open(number, encoding="ascii", errors="replace") as text:
        found = os.fstat(number)
        token = text.read(100).strip() if stat.S_ISREG(found.st_mode) and is_ours(found, 0o077) else ""
    return token if FORM.fullmatch(token) else None


def keep(file, token):
    """Keeps a token in a file, in place of what was there."""
    partial = file.with_suffix(f".{os.getpid()}")
    number = os.open(partial, os.O_WRONLY | os.O_CREAT | os.O_EXCL, 0o600)
    try:
        with open(number, "w", encoding="ascii") as text:
            text.write(token + "\n")
        os.replace(partial, file)
    except OSError:
        partial.unlink(missing_ok=True)
        raise
    return token
