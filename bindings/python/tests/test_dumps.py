"""Dumps and almost-dumps of other implementations, where they stand beside the repository."""

import unittest
from collections.abc import Iterator
from pathlib import Path

from jichurpa import BadDump, DumpReader, Image

from .support import DUMPS, needs_library


def cases(path: Path) -> Iterator[tuple[bytes, str]]:
    """The bytes of each case, and what is told of them: ok, or bad, the place and the reason."""
    for line in path.read_text().splitlines():
        data, _, told = line.partition(" ")
        yield bytes.fromhex(data), told


def told_of(data: bytes, size: int) -> tuple[str, bytes]:
    """What is told of bytes that come in pieces of that size, or at once for 0, and the image's own bytes."""
    try:
        if size == 0:
            image = Image.decode(data)
        else:
            with DumpReader() as reader:
                for place in range(0, len(data), size):
                    reader.feed(data[place : place + size])
                image = reader.finish()
    except BadDump as fault:
        return f"bad {fault.place} {fault.why.name.lower()}", b""
    with image:
        return "ok", bytes(image)


@needs_library
@unittest.skipUnless(DUMPS.is_file(), "no dumps")
class Dumps(unittest.TestCase):
    def test_cases(self) -> None:
        """Each is read as told, whole and by pieces; a dump is written back as it came, but in version 2."""
        found = list(cases(DUMPS))
        self.assertGreater(len(found), 100)
        for data, told in found:
            written = data[:8] + b"\0\2" + data[10:] if told == "ok" else b""
            for size in (0, 1, 2, 7, 4096):
                with self.subTest(data=data[:40].hex(), told=told, size=size):
                    self.assertEqual(told_of(data, size), (told, written))
