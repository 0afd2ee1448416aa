"""One line on a terminal's standard error while something takes long; a file or a pipe gets none."""
import sys
import time


class Progress:
    """The line: what goes on, and how many seconds it has taken. It appears after the first second."""

    def __init__(self, text):
        self.text, self.began, self.told = text, time.monotonic(), None

    def tell(self, text=None):
        """Writes the line anew where another second is over, or the text is a new one."""
        self.text = text or self.text
        seconds = int(time.monotonic() - self.began)
        line = f"{self.text}: {seconds} s"
        if seconds and line != self.told and sys.stderr.isatty():
            sys.stderr.write(f"\r\033[K{line}")
            sys.stderr.flush()
            self.told = line

    def end(self):
        """Takes the line away."""
        if self.told:
            sys.stderr.write("\r\033[K")
            sys.stderr.flush()
            self.told = None
