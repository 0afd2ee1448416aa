"""Finding the program and running it."""
import os
import shutil
import subprocess
import sys
from pathlib import Path

from .errors import LookError
from .progress import Progress

TOP = Path(__file__).resolve().parent.parent.parent
CRATE = TOP / "crates" / "rdma_cli"
BUILT = CRATE / "out" / "rdma_cli"
INSTALLED = "jichurpa"
VARIABLE = "JICHURPA"

MOST_BYTES = 1_048_576

# How a run of `play` may end that is no fault of look's: the whole script, a bad line, or no memory left.
PLAYED, BAD_LINE, NO_MEMORY = 0, 3, 8


def named_program(named):
    """The program that a word or the environment names, or None."""
    for source, word in (("--program", named), (f"the variable {VARIABLE}", os.environ.get(VARIABLE))):
        if word:
            found = shutil.which(word)
            if found is None:
                raise LookError(f"{source} names {word}, which is no program")
            return found
    return None


def find_program(named=None):
    """The path of the program: as named, built in this repository, or installed."""
    found = named_program(named) or shutil.which(str(BUILT)) or shutil.which(INSTALLED)
    if found is None:
        raise LookError(
            f"no program: {BUILT} is not built, and {INSTALLED} is not on the path; "
            f"name one by --program or the variable {VARIABLE}; with the Rattle kit, {VARIABLE}=$(tools/quick --path) names an unproved one")
    return found


class Program:
    """The program, which is looked for at its first run, and how often it was run."""

    def __init__(self, named=None):
        self.named = named
        self.runs = 0
        self.doing = ""  # what the next runs are for, as the line of progress tells it
        self.progress = Progress("look")

    def command(self):
        """The words that run the program, and the folder in which they have to."""
        return [find_program(self.named)], None

    def run(self, words, given=b""):
        """The status and the bytes that the program wrote."""
        command, folder = self.command()
        self.runs += 1
        self.progress.show(f"run {self.runs} of the program{self.doing}")
        try:
            ended = subprocess.run([*command, *words], input=given, stdout=subprocess.PIPE, stderr=subprocess.PIPE, cwd=folder, check=False)
        except OSError as fault:
            raise LookError(f"{command[0]} cannot be run: {fault.strerror}") from None
        finally:
            self.progress.clear()
        return ended.returncode, ended.stdout

    def play(self, script):
        """The status and the lines of answers of a script (bytes)."""
        if len(script) > MOST_BYTES:
            raise LookError(f"the script has {len(script):,} bytes, and the program takes {MOST_BYTES:,}")
        status, written = self.run(["play"], script)
        if status not in (PLAYED, BAD_LINE, NO_MEMORY):
            raise LookError(f"{' '.join(self.command()[0])} play ended with status {status}, which is not one of the statuses 0, 3 and 8 of play")
        return status, written.decode("ascii", "replace").splitlines()


class TriedProgram(Program):
    """The program as `rt try` runs it: without a proof, and built anew for each run."""

    def command(self):
        if shutil.which("rt") is None:
            raise LookError("--try needs the Rattle kit: `rt` is not on the path")
        return ["rt", "try", "--"], CRATE

    def run(self, words, given=b""):
        self.command()
        print(f"look: run {self.runs + 1} of the program, unproved; each takes a minute or more", file=sys.stderr)
        return super().run(words, given)
