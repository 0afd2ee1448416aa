"""Running look, the program and other tools in tests."""
import contextlib
import io
import os
import shutil
import socket
import subprocess
import sys
import tempfile
import unittest
from pathlib import Path
from unittest import mock

from look_parts.bench import free_ports
from look_parts.command import main
from look_parts.errors import LookError
from look_parts.program import TOP, VARIABLE, find_program

LOOK = TOP / "tools" / "look"
# The one command of docs/look.md that installs what tests need.
INSTALL = "`apt-get update && apt-get install -y tshark mscgen`"
EXAMPLES = TOP / "examples"
# The examples that `play` answers, without those of `large`, which send thousands of datagrams; those of `live_move` are of nodes.
SCRIPTS = sorted(path for path in EXAMPLES.rglob("*.script") if path.parent.name not in ("large", "live_move"))
# The worked cases of other implementations, where they stand beside the repository.
CASES = TOP.parent / "shared" / "cases" / "scripts"

# The examples whose datagrams are counted by hand, by their answers.
COUNTS = {
    "dump": 0, "evicted_while_waiting": 10, "lost_packet": 4, "move_in_a_message": 11, "one_write": 2, "read_and_atomic": 4,
    "read_in_two_moves": 17}

found = {"program": None}


def prepare(named):
    """Finds the program and tools; a line for each one that is missing."""
    try:
        found["program"] = find_program(named)
    except LookError as fault:
        yield f"tests that run the program are left out: {fault}"
    for tool in ("tshark", "mscgen"):
        found[tool] = shutil.which(tool)
        if not found[tool]:
            yield f"tests with {tool} are left out, since it is not on the path; {INSTALL} installs it on Debian"
    try:
        free_ports()
        found["loopback"] = True
    except LookError as fault:
        yield f"tests that measure are left out: {fault}"
    try:
        socket.socket(socket.AF_PACKET, socket.SOCK_RAW).close()
        found["tap"] = found.get("loopback")
    except (AttributeError, OSError):
        yield "the test of a live capture is left out, since raw sockets are not permitted"


def need(name):
    """A test that is left out where a tool is missing."""
    def decorate(test):
        def run(self):
            if not found.get(name):
                self.skipTest(f"{name} is missing")
            test(self)
        run.__name__, run.__doc__ = test.__name__, test.__doc__
        return run
    return decorate


def played_cases():
    """The scripts of worked cases that `play` plays to their end."""
    for script in sorted(CASES.glob("*.script")):
        words, status = (script.with_suffix(end).read_text().split() for end in (".words", ".status"))
        if words == ["play"] and status == ["0"]:
            yield script


def play(script):
    """The lines that the program answers to a script (text), played without look."""
    ended = subprocess.run([found["program"], "play"], input=script.encode(), stdout=subprocess.PIPE, check=False)
    return ended.stdout.decode("ascii").splitlines()


class LookTest(unittest.TestCase):
    """Runs look on files of a folder of its own."""
    maxDiff = None

    def setUp(self):
        kept = tempfile.TemporaryDirectory()
        self.addCleanup(kept.cleanup)
        self.folder = Path(kept.name)

    def file(self, name, data):
        path = self.folder / name
        path.write_bytes(data if isinstance(data, bytes) else data.encode())
        return path

    def look(self, *words, given="", status=0, program=None):
        """What look writes to its standard output; its standard error is in self.told. It runs in this process."""
        env = {VARIABLE: program or found["program"] or "", "XDG_STATE_HOME": str(self.folder)}
        out, err = io.TextIOWrapper(io.BytesIO(), write_through=True), io.StringIO()
        stdin = io.TextIOWrapper(io.BytesIO(given.encode()))
        with mock.patch.dict(os.environ, env), mock.patch("sys.stdin", stdin), contextlib.redirect_stdout(out), contextlib.redirect_stderr(err):
            try:
                ended = main([str(word) for word in words])
            except SystemExit as end:
                ended = end.code
        self.told = err.getvalue()
        self.assertEqual(ended, status, self.told)
        return out.buffer.getvalue().decode()

    def look_alone(self, *words):
        """The same as a process of its own, with its status."""
        ended = subprocess.run([sys.executable, str(LOOK), *map(str, words)], capture_output=True, check=False)
        return ended.returncode, ended.stdout.decode(), ended.stderr.decode()

    def one_line(self, *words, **more):
        """The one line by which look says that it cannot do something."""
        self.assertEqual(self.look(*words, status=1, **more), "")
        self.assertEqual(self.told.count("\n"), 1, self.told)
        self.assertTrue(self.told.startswith("look: "), self.told)
        return self.told[len("look: "):-1]
