"""Where things are, what a machine lacks, and small helpers of the tests."""

import importlib.util
import io
import os
import unittest
from collections.abc import Callable, Iterator
from pathlib import Path

from jichurpa import Address, Device, LibraryNotFound, Refusal, Refused, library
from jichurpa.__main__ import main

HERE = Path(__file__).resolve().parent
MODULE = HERE.parent
TOP = MODULE.parent.parent
HEADER = TOP / "bindings" / "c" / "jichurpa.h"
EXAMPLES = TOP / "examples"
CASES = TOP.parent / "shared" / "cases" / "scripts"
DUMPS = TOP.parent / "shared" / "cases" / "dumps" / "dumps.txt"


def library_fault() -> str:
    """Why the library is not usable, and nothing where it is. A library that is named but does not load is a failure."""
    try:
        library.library()
    except LibraryNotFound as fault:
        if os.environ.get(library.VARIABLE):
            raise
        return str(fault)
    return ""


LIBRARY_FAULT = library_fault()


def installers() -> list[str]:
    """The modules of Python that installing needs and that are missing."""
    return [name for name in ("pip", "setuptools", "wheel") if importlib.util.find_spec(name) is None]


def lacking() -> Iterator[str]:
    """What the machine lacks, and which tests are left out."""
    if LIBRARY_FAULT:
        yield f"tests with a device are left out: {LIBRARY_FAULT}"
    if not CASES.is_dir():
        yield f"the worked cases are left out, since {CASES} is not here"
    if not DUMPS.is_file():
        yield f"the worked dumps are left out, since {DUMPS} is not here"
    if not HEADER.is_file():
        yield f"the comparison with the header is left out, since {HEADER} is not here"
    if installers():
        yield f"the installation is left out, since there is no {' and no '.join(installers())}"


needs_library = unittest.skipIf(LIBRARY_FAULT != "", "no library")
needs_header = unittest.skipUnless(HEADER.is_file(), "no header")
needs_cases = unittest.skipUnless(CASES.is_dir(), "no worked cases")
needs_installers = unittest.skipIf(bool(installers()), "no pip, setuptools or wheel")


def run(words: list[str]) -> tuple[int, bytes]:
    """What python -m jichurpa with these words ends with, and writes."""
    output = io.BytesIO()
    return main(words, output), output.getvalue()


def refused(test: unittest.TestCase, cause: Refusal, step: Callable[[], object]) -> None:
    """The step is refused with that cause."""
    with test.assertRaises(Refused) as caught:
        step()
    test.assertEqual(caught.exception.cause, cause)


def carry(devices: list[Device], source: Device, datagrams: list) -> list[str]:
    """Delivers datagrams, and what answers them; what each one did."""
    by_address: dict[Address, Device] = {device.address: device for device in devices}
    did = []
    for datagram in datagrams:
        device = by_address[datagram.to]
        arrival = device.arrive(source.address, datagram.data)
        did.append(f"{device.id} {arrival.took.name}")
        did += carry(devices, device, arrival.sent)
    return did
