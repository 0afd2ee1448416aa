"""A line that says what is under way, on a terminal's standard error alone: in a pipe or a file nothing is written."""
import sys

BACK_AND_CLEAR = "\r\x1b[K"


class Progress:
    """The line, which each `show` writes over."""

    def __init__(self, name, stream=None):
        self.name = name
        self.stream = stream or sys.stderr
        self.is_on = self.stream.isatty()

    def show(self, told):
        if self.is_on:
            self.stream.write(f"{BACK_AND_CLEAR}{self.name}: {told}")
            self.stream.flush()

    def clear(self):
        if self.is_on:
            self.stream.write(BACK_AND_CLEAR)
            self.stream.flush()
