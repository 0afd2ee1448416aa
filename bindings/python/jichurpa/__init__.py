"""A software RDMA device (RoCEv2, reliable connections) whose contexts can be stopped, carried as bytes and restored.

The device has no socket, no clock and no thread. Its owner hands it what happens: what applications ask, datagrams that
arrive, and timers that expire. It answers, and gives the datagrams that are to be sent.

    with Device(1, "10.0.0.1") as device:
        context = device.make_context("a")

The module needs the shared library libjichurpa.so. It is the file that the environment variable JICHURPA_LIBRARY names, or
stands beside this module, or where the system looks for libraries.

`python -m jichurpa play FILE` plays a script of docs/scripts.md.

Threads may share a device, an image or a reader: a lock lets one call in at a time. Do not use them in the forked child of a
process with threads.
"""

from .device import CompletionQueue, Context, Device, Domain, QueuePair, Region, connect
from .enums import (
    Answer,
    DumpWhy,
    Kind,
    NotCountedWhy,
    Refusal,
    Rights,
    SilentWhy,
    State,
    Took,
    WcKind,
    WcStatus,
    Why,
)
from .errors import (
    BadDump,
    Closed,
    InvalidArgument,
    JichurpaError,
    LibraryNotFound,
    NotHere,
    OutOfMemory,
    Refused,
)
from .images import DumpReader, Image
from .values import (
    Address,
    Arrival,
    Completion,
    Datagram,
    Expiry,
    Keys,
    Marks,
    QueuePairInfo,
    Receive,
    Terms,
    Transmission,
    WorkRequest,
)

__version__ = "0.1.0"

__all__ = [
    "Address",
    "Answer",
    "Arrival",
    "BadDump",
    "Closed",
    "Completion",
    "CompletionQueue",
    "Context",
    "Datagram",
    "Device",
    "Domain",
    "DumpReader",
    "DumpWhy",
    "Expiry",
    "Image",
    "InvalidArgument",
    "JichurpaError",
    "Keys",
    "Kind",
    "LibraryNotFound",
    "Marks",
    "NotCountedWhy",
    "NotHere",
    "OutOfMemory",
    "QueuePair",
    "QueuePairInfo",
    "Receive",
    "Refusal",
    "Refused",
    "Region",
    "Rights",
    "SilentWhy",
    "State",
    "Terms",
    "Took",
    "Transmission",
    "WcKind",
    "WcStatus",
    "Why",
    "WorkRequest",
    "connect",
]
