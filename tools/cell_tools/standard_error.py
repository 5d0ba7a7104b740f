"""Standard error for bin/dvbt and cells.py."""
import os


class StandardError:
    """Standard error as far as it takes what is written: what it does not take changes no status. `to` is its descriptor, None if it is
    closed; `last` is the last text that was written."""

    def __init__(self, to=2):
        self.text, self.last, self.to = "", "", to

    def write(self, text):
        self.text += text
        if text.endswith("\n"):
            self.flush()

    def flush(self):
        if self.text:
            data, self.text, self.last = self.text.encode("utf-8", "backslashreplace"), "", self.text.strip()
            try:
                put(data if self.to else b"", self.to)
            except OSError:
                pass

    def isatty(self):
        return self.to is not None and os.isatty(self.to)


def put(data, to):
    """Writes all of it to a descriptor."""
    while data:
        data = data[os.write(to, data) :]
