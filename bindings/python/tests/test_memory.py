"""Where memory runs out: in processes of their own, whose address space is limited."""

import subprocess
import sys
import unittest

from .support import MODULE, needs_library

BEGINNING = """
import pathlib
import resource
from jichurpa import Device, Image, OutOfMemory, Rights

def limit(more):
    "Lets the process take so many bytes more."
    used = int(pathlib.Path("/proc/self/statm").read_text().split()[0]) * resource.getpagesize()
    resource.setrlimit(resource.RLIMIT_AS, (used + more, resource.getrlimit(resource.RLIMIT_AS)[1]))
"""

DEVICES = """
first = Device(1, "10.0.0.1")
limit(200 * 2**20)
devices = []
try:
    while len(devices) < 100:
        devices.append(Device(2, "10.0.0.2"))
except OutOfMemory:
    print("out of memory", 1 <= len(devices) <= 6)
devices.pop().close()
devices.append(Device(3, "10.0.0.3"))
first.make_context("a")
print(first.contexts())
"""

IMAGE = """
one, two = Device(1, "10.0.0.1"), Device(2, "10.0.0.2")
context = one.make_context("a")
region = context.make_region("m", context.make_domain("p"), 0, 2**24, Rights.NONE)
region.store(2**24 - 3, b"end")
limit(30 * 2**20)  # the image may take 16 MiB of it, its bytes take as much again
try:
    context.stop()
except OutOfMemory as fault:
    image = fault.image
    print(one.contexts(), isinstance(image, Image))
limit(2**30)
moved = two.restore(bytes(image))
print(moved.region("m").load(2**24 - 3, 3))
"""


def run(code: str) -> tuple[int, str, str]:
    """How a program ends, and what it writes."""
    words = [sys.executable, "-B", "-W", "error", "-c", BEGINNING + code]
    ended = subprocess.run(words, cwd=MODULE, capture_output=True, text=True, check=False)
    return ended.returncode, ended.stdout, ended.stderr


@needs_library
@unittest.skipUnless(sys.platform == "linux", "limits of the address space are tried on Linux")
class Memory(unittest.TestCase):
    def test_devices(self) -> None:
        """A device that has no room raises OutOfMemory; with room again all goes on."""
        self.assertEqual(run(DEVICES), (0, "out of memory True\n['a']\n", ""))

    def test_image(self) -> None:
        """The image of a context whose bytes have no room is not lost."""
        self.assertEqual(run(IMAGE), (0, "[] True\nb'end'\n", ""))
