"""Scripts, played over the library, against the answers of the examples and of the worked cases."""

import os
import subprocess
import sys
import tempfile
import unittest
from pathlib import Path

from .support import CASES, EXAMPLES, MODULE, needs_cases, needs_library, run


def words_of(script: Path) -> list[str]:
    """The words that a script is for."""
    words = script.with_suffix(".words")
    return words.read_text().split() if words.exists() else ["play"]


def played(folder: Path) -> list[Path]:
    """The scripts of a folder that `play` plays."""
    return [script for script in sorted(folder.glob("*.script")) if words_of(script) == ["play"]]


class Examples(unittest.TestCase):
    @needs_library
    def test_answers(self) -> None:
        """Each example has the answers of its file, and status 0."""
        for folder in (EXAMPLES, EXAMPLES / "tour", EXAMPLES / "large"):
            scripts = played(folder)
            self.assertTrue(scripts, folder)
            for script in scripts:
                with self.subTest(script=script.name):
                    expected = script.with_suffix(".expected").read_bytes()
                    self.assertEqual(run(["play", str(script)]), (0, expected))


class Cases(unittest.TestCase):
    @needs_library
    @needs_cases
    def test_answers(self) -> None:
        """Each worked case of `play` has its answers and its status."""
        scripts = played(CASES)
        self.assertGreater(len(scripts), 20)
        for script in scripts:
            with self.subTest(script=script.name):
                expected = script.with_suffix(".expect").read_bytes()
                status = int(script.with_suffix(".status").read_text())
                self.assertEqual(run(["play", str(script)]), (status, expected))


def command(*words: str, **more: object) -> subprocess.CompletedProcess:
    """Runs python -m jichurpa as a process of its own."""
    whole = [sys.executable, "-B", "-m", "jichurpa", *words]
    return subprocess.run(whole, cwd=MODULE, stderr=subprocess.PIPE, check=False, **more)


class Command(unittest.TestCase):
    def test_wrong_words(self) -> None:
        for words in ([], ["fly"], ["play", "a", "b"], ["bulk", "1", "1", "1", "1"]):
            self.assertEqual(run(words), (2, b"usage\n"))

    def test_help_and_version(self) -> None:
        self.assertEqual(run(["--version"]), (0, b"jichurpa 0.1.0\n"))
        status, text = run(["--help"])
        self.assertEqual(status, 0)
        self.assertIn(b"python -m jichurpa play [FILE]", text)

    def test_no_library(self) -> None:
        """A library that is not there is told on the error output."""
        nowhere = {**os.environ, "JICHURPA_LIBRARY": "/nowhere/libjichurpa.so"}
        ended = command("play", "-", env=nowhere, stdin=subprocess.DEVNULL, stdout=subprocess.PIPE)
        self.assertEqual((ended.returncode, ended.stdout), (1, b""))
        self.assertIn(b"/nowhere/libjichurpa.so", ended.stderr)
        self.assertEqual(ended.stderr.count(b"\n"), 1)

    @needs_library
    def test_input(self) -> None:
        """The script may come from the input."""
        for words in (["play"], ["play", "-"]):
            ended = command(*words, input=b"device 1 10.0.0.1\n\nfly", stdout=subprocess.PIPE)
            self.assertEqual((ended.returncode, ended.stdout), (3, b"ok\nbad line 3 column 1 word\n"))

    @needs_library
    def test_unread(self) -> None:
        """An input that cannot be read ends the run with status 4, and nothing is written."""
        ended = command("play", "/nowhere/a.script", stdout=subprocess.PIPE)
        self.assertEqual((ended.returncode, ended.stdout), (4, b""))
        closed = ["sh", "-c", 'exec "$@" <&-', "sh", sys.executable, "-B", "-m", "jichurpa", "play"]
        ended = subprocess.run(closed, cwd=MODULE, stdout=subprocess.PIPE, stderr=subprocess.PIPE, check=False)
        self.assertEqual((ended.returncode, ended.stdout), (4, b""))

    @needs_library
    def test_unwritten(self) -> None:
        """An output that cannot be written ends the run with status 5."""
        if not os.path.exists("/dev/full"):
            self.skipTest("there is no /dev/full")
        with open("/dev/full", "wb") as full:
            ended = command("play", input=b"device 1 10.0.0.1\n", stdout=full)
        self.assertEqual((ended.returncode, ended.stderr), (5, b""))

    @needs_library
    def test_long_input(self) -> None:
        """1,048,576 bytes are played, and one more is too long."""
        with tempfile.TemporaryDirectory() as folder:
            script = Path(folder) / "long.script"
            script.write_bytes(b"settle\n".rjust(1048576, b"\n"))
            self.assertEqual(run(["play", str(script)]), (0, b"quiet 0\n"))
            script.write_bytes(b"settle\n".rjust(1048577, b"\n"))
            self.assertEqual(run(["play", str(script)]), (9, b"input too long\n"))

    @needs_library
    def test_out_of_memory(self) -> None:
        """Where no memory is left, earlier lines are answered, and the run ends with status 8."""
        code = (
            "import resource, sys; from jichurpa.library import library; library(); "
            "used = int(open('/proc/self/statm').read().split()[0]) * resource.getpagesize(); "
            "resource.setrlimit(resource.RLIMIT_AS, (used + 300 * 2**20,) * 2); "
            "from jichurpa.__main__ import main; sys.exit(main(['play'], sys.stdout.buffer))"
        )
        lines = b"".join(b"device %d 10.0.0.%d\n" % (i, i) for i in range(1, 17))
        ended = subprocess.run(
            [sys.executable, "-B", "-c", code], cwd=MODULE, input=lines, stdout=subprocess.PIPE, check=False
        )
        self.assertEqual(ended.returncode, 8)
        answers = ended.stdout.split(b"\n")
        self.assertEqual(set(answers[:-2]), {b"ok"})
        self.assertEqual(answers[-2:], [b"out of memory", b""])
