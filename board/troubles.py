"""What the system refuses the server, in words: what happened, what is lost and what to do. And lines on standard error."""

import contextlib
import errno
import os

# What to do, by the number of the system's refusal.
ADVICE = {
    errno.ENOSPC: "Make room on that disk, and try again.",
    errno.EDQUOT: "Make room on that disk, and try again.",
    errno.EFBIG: "Let files be larger (ulimit -f) where bin/hexd-board starts, and start it anew.",
    errno.EROFS: "Let TMPDIR name a folder that can be written, and start bin/hexd-board anew.",
    errno.EACCES: "Let its user have the right to it, and try again.",
    errno.EMFILE: "Close pages of this board, or let a process have more files (ulimit -n), and try again.",
    errno.ENFILE: "End other programs, and try again.",
    errno.EAGAIN: "End other programs, or let there be more processes (ulimit -u), and try again.",
    errno.ENOMEM: "End other programs, and try again.",
    errno.ENOENT: "Put it back, or start bin/hexd-board anew.",
}
OTHERWISE = "Start bin/hexd-board anew."
KEPT = "Nothing is lost: the game is in this page."


def told(what, fault):
    """A fault of the system in words, as `hexd's folder can't be written: No space left on device. ..`."""
    why = os.strerror(fault.errno) if fault.errno else str(fault)
    return f"{what}: {why}. {KEPT} {ADVICE.get(fault.errno, OTHERWISE)}"


def say(text):
    """Writes a line on standard error. If that is closed or full the line is lost, and nothing else."""
    with contextlib.suppress(OSError):
        os.write(2, f"{text}\n".encode(errors="backslashreplace"))
