"""Runs all tests: python3 -m tests. A line tells what a machine lacks; the tests that need it are left out."""

import sys
import unittest

from . import support


def main() -> int:
    """Runs the tests, and gives the status."""
    for line in support.lacking():
        print(f"bindings/python: {line}")
    found = unittest.defaultTestLoader.discover(str(support.HERE), top_level_dir=str(support.MODULE))
    ended = unittest.TextTestRunner(stream=sys.stdout, verbosity=0).run(found)
    return 0 if ended.wasSuccessful() and ended.testsRun > 0 else 1


if __name__ == "__main__":
    sys.exit(main())
