"""Calls of the system that fail or are late, disks that take nothing, and signals, for tests of nodes and of what depots leave."""
import errno
import os
import re
import shutil
import signal
import subprocess
import time

# The calls that change what lies in a folder or on a disk, and those that tell.
CALLS = "openat,mkdir,link,rename,unlink,fsync,write"


def dump_of(name):
    """The dump of a context with this name and nothing in it: magic, version 2, the name, and four counts of nothing."""
    return b"MIGDUMP\x00\x00\x02" + bytes([len(name)]) + name + bytes(8)


def why_no_strace():
    """Why no call can be stopped here; None where it can."""
    if not shutil.which("strace"):
        return "there is no strace"
    tried = subprocess.run(["strace", "-f", "-qq", "-o", os.devnull, "true"], stderr=subprocess.DEVNULL, check=False)
    return None if tried.returncode == 0 else "strace may not trace here"


def traced(trace, inject=()):
    """The words that trace those calls of a program into a file, and disturb some."""
    return ["strace", "-f", "-qq", "-o", str(trace), "-e", f"trace={CALLS}", *[word for one in inject for word in ("-e", f"inject={one}")]]


def calls_in(trace, begins):
    """Each call of a trace from the first on in which a text stands: its name, how many of that name came before it, and its text."""
    counts, calls, begun = {}, [], False
    for line in trace.read_text().splitlines():
        found = re.match(r"\d+ +(\w+)\(", line)
        if not found:
            continue
        name = found[1]
        counts[name] = counts.get(name, 0) + 1
        begun = begun or begins in line
        if begun:
            calls.append((name, counts[name], line))
    return calls


def take_usual_signals():
    """Gives signals their usual effect on what is started here: a shell that runs a test in the background lets it ignore some."""
    for number in (signal.SIGINT, signal.SIGTERM, signal.SIGHUP, signal.SIGQUIT):
        if signal.getsignal(number) == signal.SIG_IGN:
            signal.signal(number, signal.SIG_DFL)


def mount(test, depot, options):
    """Mounts an empty file system at a folder; the test is left out where that is refused."""
    depot.mkdir(exist_ok=True)
    words = ["mount", "-t", "tmpfs", "-o", options, "tmpfs", str(depot)]
    if not shutil.which("mount") or subprocess.run(words, stderr=subprocess.DEVNULL, check=False).returncode:
        test.skipTest("no file system may be mounted here")
    test.addCleanup(subprocess.run, ["umount", str(depot)], check=True)


def fill(path):
    """Writes a file until its disk is full."""
    with open(path, "wb", buffering=0) as it:
        try:
            while True:
                it.write(bytes(4096))
        except OSError as error:
            if error.errno != errno.ENOSPC:
                raise


def wait_for(happens, longest=20):
    """Waits until that happens."""
    end = time.monotonic() + longest
    while not happens():
        if time.monotonic() > end:
            raise TimeoutError("what was waited for did not happen")
        time.sleep(0.01)
