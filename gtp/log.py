"""A file to which all lines are added that come in, and that go out."""


class Log:
    """The file of a name, or nothing if there is none. Its lines begin with > if they came, and with < if they were answered."""

    def __init__(self, name):
        self.file = open(name, "ab", buffering=0) if name else None

    def note(self, mark, text):
        """Adds each line of a text."""
        if self.file:
            self.file.write(b"".join(b"%s %s\n" % (mark, line) for line in text.removesuffix(b"\n").split(b"\n")))
