"""The most memory that a program takes."""
import os
import shutil
import subprocess
import sys

TIME = shutil.which("time", path="/usr/bin:/bin:/usr/local/bin")


def most_memory(words, script=os.devnull):
    """The most MiB of one run of these words on a script.

    A process that Python starts counts the memory of Python, some 15 MiB, as its own. So the run is started by GNU time, which is small,
    and where that is not there no memory is told: NaN.
    """
    if not TIME:
        return float("nan")
    with open(script, "rb") as text:
        ran = subprocess.run([TIME, "-f", "%M", *words], stdin=text, stdout=subprocess.DEVNULL, stderr=subprocess.PIPE, text=True)
    return int(ran.stderr.split()[-1]) / 1024


if not TIME:
    print("memory: GNU time is not there, so no memory is told", file=sys.stderr)
