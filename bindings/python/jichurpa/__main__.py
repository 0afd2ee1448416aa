"""python -m jichurpa play [FILE]: plays a script of docs/scripts.md over the library.

FILE is a file, or - for the input, which is also read where no file is named. The answers are written to the output. Statuses
and last lines are those of docs/scripts.md:

  0  every line is answered           5  the output could not be written
  2  the words are none of these      8  memory ran out
  3  a line is in no form             9  the input has over 1,048,576 bytes
  4  the input could not be read

It ends with status 1, and a word about it on the error output, where the library cannot be loaded.
"""

from __future__ import annotations

import os
import sys
from collections.abc import Iterator
from typing import BinaryIO

from . import __version__
from .errors import LibraryNotFound
from .library import library
from .play.lines import MAX_SCRIPT
from .play.player import BadScript, play_script

DONE, NO_LIBRARY, WRONG_WORDS, BAD_INPUT, UNREAD, UNWRITTEN, NO_MEMORY, TOO_LONG = 0, 1, 2, 3, 4, 5, 8, 9


def read_script(path: str) -> bytes:
    """The bytes of a script, and at most one more than a script may have. Raises OSError."""
    source: str | int = 0 if path == "-" else path
    with open(source, "rb", closefd=path != "-") as file:
        return file.read(MAX_SCRIPT + 1)


def answered(script: bytes, ending: list[int]) -> Iterator[str]:
    """The lines of the answers and the last line. How the run ended is put into `ending`."""
    try:
        yield from play_script(script)
        ending.append(DONE)
    except BadScript as fault:
        ending.append(BAD_INPUT)
        yield str(fault)
    except MemoryError:
        ending.append(NO_MEMORY)
        yield "out of memory"


def write_all(lines: Iterator[str], output: BinaryIO) -> bool:
    """Writes lines, each as soon as it is known. Whether that went well."""
    try:
        for line in lines:
            output.write(line.encode() + b"\n")
            output.flush()
    except OSError:
        return False
    return True


def play(path: str, output: BinaryIO) -> int:
    """Plays a script, and gives the status of the run."""
    try:
        script = read_script(path)
    except OSError as fault:
        print(f"jichurpa: {path} cannot be read: {fault.strerror}", file=sys.stderr)
        return UNREAD
    if len(script) > MAX_SCRIPT:
        return TOO_LONG if write_all(iter(["input too long"]), output) else UNWRITTEN
    ending: list[int] = []
    if not write_all(answered(script, ending), output):
        return UNWRITTEN
    return ending[0]


def main(words: list[str], output: BinaryIO) -> int:
    """Does what the words say, and gives the status."""
    if words in (["--help"], ["-h"], ["play", "--help"], ["play", "-h"]):
        return DONE if write_all(iter([(__doc__ or "").strip()]), output) else UNWRITTEN
    if words == ["--version"]:
        return DONE if write_all(iter([f"jichurpa {__version__}"]), output) else UNWRITTEN
    if words[:1] != ["play"] or len(words) > 2:
        return WRONG_WORDS if write_all(iter(["usage"]), output) else UNWRITTEN
    try:
        library()
    except LibraryNotFound as fault:
        print(f"jichurpa: {fault}", file=sys.stderr)
        return NO_LIBRARY
    return play(words[1] if len(words) == 2 else "-", output)


if __name__ == "__main__":
    status = main(sys.argv[1:], sys.stdout.buffer)
    sys.stderr.flush()
    os._exit(status)  # without Python's own flush of an output that was closed
