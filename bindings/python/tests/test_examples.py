"""The program of docs/embedding.md, and the module installed alone."""

import os
import shutil
import subprocess
import sys
import tempfile
import unittest
from pathlib import Path

from .support import MODULE, needs_installers, needs_library

PROGRAM = MODULE / "examples" / "two_devices.py"


class Program(unittest.TestCase):
    @needs_library
    def test_output(self) -> None:
        """It writes what is expected, and no warning."""
        words = [sys.executable, "-B", "-W", "error", str(PROGRAM)]
        within = {**os.environ, "PYTHONPATH": str(MODULE)}
        ended = subprocess.run(words, env=within, capture_output=True, text=True, check=False)
        expected = PROGRAM.with_suffix(".expected").read_text()
        self.assertEqual((ended.returncode, ended.stdout, ended.stderr), (0, expected, ""))

    def test_length(self) -> None:
        """It has under 40 lines."""
        self.assertLess(len(PROGRAM.read_text().splitlines()), 40)


def version(module: Path, elsewhere: str) -> tuple[int, str, str]:
    """What the command of a module in a folder says of its version, run from elsewhere."""
    asked = [sys.executable, "-B", "-W", "error", "-m", "jichurpa", "--version"]
    within = {**os.environ, "PYTHONPATH": str(module)}
    ended = subprocess.run(asked, cwd=elsewhere, env=within, capture_output=True, text=True, check=False)
    return ended.returncode, ended.stdout, ended.stderr


class Installed(unittest.TestCase):
    def test_alone(self) -> None:
        """The module needs nothing else of the repository."""
        with tempfile.TemporaryDirectory() as folder:
            shutil.copytree(MODULE / "jichurpa", Path(folder) / "jichurpa")
            self.assertEqual(version(Path(folder), "/"), (0, "jichurpa 0.1.0\n", ""))

    @needs_installers
    def test_installed(self) -> None:
        """A copy of the module is installed without a network, and its command runs from elsewhere."""
        with tempfile.TemporaryDirectory() as folder:
            source, target = Path(folder) / "source", Path(folder) / "target"
            shutil.copytree(MODULE, source, ignore=shutil.ignore_patterns("__pycache__"))
            words = [
                sys.executable,
                "-m",
                "pip",
                "install",
                "--quiet",
                "--no-index",
                "--no-deps",
                "--no-build-isolation",
            ]
            words += ["--disable-pip-version-check", "--root-user-action=ignore", "--target", str(target), str(source)]
            made = subprocess.run(words, capture_output=True, text=True, check=False)
            self.assertEqual(made.returncode, 0, made.stderr)
            self.assertTrue((target / "jichurpa" / "py.typed").exists())
            self.assertEqual(version(target, folder), (0, "jichurpa 0.1.0\n", ""))
