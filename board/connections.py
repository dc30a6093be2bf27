"""The connections of the server: how many there are, which gives way to another one, and how long a client may take for a part
of a request."""

import contextlib
import io
import resource
import socket
import threading
import time

# At most so many, and no more than this part of the files that the process may open.
MOST, SHARE_OF_FILES = 128, 4
# The most bytes of a request's head: Python takes a hundred lines of 64 KiB. And how many are read at once: the last ones of a
# head come with fewer of its body.
MOST_HEAD_BYTES, PIECE_BYTES = 65_536, 8_192


def most():
    """As many connections as there may be here."""
    soft, _ = resource.getrlimit(resource.RLIMIT_NOFILE)
    return MOST if soft == resource.RLIM_INFINITY else max(1, min(MOST, soft // SHARE_OF_FILES))


class Line(io.RawIOBase):
    """What a client sends, which has to come by a time, however slowly; and whether that was the end of it."""

    def __init__(self, connection):
        super().__init__()
        self.connection, self.is_ended = connection, False
        self.until = time.monotonic()
        # How many bytes may come; None if what reads them counts them.
        self.room = None

    def readable(self):
        return True

    def within(self, seconds, room=None):
        """From now on a part of a request has so long to come, or to be taken, and at most so many bytes."""
        self.until, self.room = time.monotonic() + seconds, room
        self.connection.settimeout(seconds)

    def readinto(self, room):
        self.connection.settimeout(max(0.001, self.until - time.monotonic()))
        got = self.connection.recv_into(room)
        self.is_ended = not got
        if self.room is not None:
            self.room -= got
            if self.room < 0:
                raise ConnectionAbortedError("the head of a request is too long")
        return got


class Connections:
    """Those that are open. The one that has waited longest for a request of its client gives way if there are too many."""

    def __init__(self, most):
        self.most, self.turn = most, threading.Lock()
        # Since when each waits, by itself; None if it has a request at work.
        self.waiting = {}

    def begin(self, connection):
        """Whether a new connection may stay. Another one may have to go for it."""
        with self.turn:
            if len(self.waiting) >= self.most and not self._drop():
                return False
            self.waiting[connection] = time.monotonic()
            return True

    def set_waiting(self, connection, is_waiting):
        """Says whether a client is waited for. One that was dropped stays so."""
        with self.turn:
            if connection in self.waiting:
                self.waiting[connection] = time.monotonic() if is_waiting else None

    def end(self, connection):
        with self.turn:
            self.waiting.pop(connection, None)

    def drop(self):
        """Ends the connection that has waited longest; whether there was one."""
        with self.turn:
            return self._drop()

    def _drop(self):
        since = {connection: began for connection, began in self.waiting.items() if began is not None}
        if not since:
            return False
        oldest = min(since, key=since.get)
        del self.waiting[oldest]
        # Its own thread meets the end of its input, and closes it.
        with contextlib.suppress(OSError):
            oldest.shutdown(socket.SHUT_RDWR)
        return True
