"""What look tells in one line on its standard error."""
import sys


class LookError(Exception):
    """Something that look cannot do, said in one line, and the status that it then ends with."""

    def __init__(self, told, status=1):
        super().__init__(told)
        self.status = status


def warn(told, name="look"):
    """Says something beside what is shown."""
    print(f"{name}: {told}", file=sys.stderr)
