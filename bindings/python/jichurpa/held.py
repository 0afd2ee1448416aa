"""What the library holds for this module, and frees when it is closed."""

from __future__ import annotations

import ctypes
import threading
import weakref
from collections.abc import Callable
from types import TracebackType
from typing import TypeVar

from .enums import DumpWhy, Result
from .errors import BadDump, Closed, InvalidArgument, JichurpaError, OutOfMemory
from .library import Handle, RawFault, library

Self = TypeVar("Self", bound="Held")


def check(result: int, fault: RawFault | None = None) -> None:
    """Raises what a result other than OK means."""
    if result == Result.OK:
        return
    if result == Result.NO_MEMORY:
        raise OutOfMemory
    if result == Result.INVALID:
        raise InvalidArgument("an argument is out of its range")
    if result == Result.BAD_DUMP and fault is not None:
        raise BadDump(fault.place, DumpWhy(fault.why))
    raise JichurpaError(f"the library answered {result}")


def _free(function: Callable[[object], int], handle: Handle) -> None:
    """Frees what a handle holds."""
    check(function(ctypes.byref(handle)))


class Held:
    """Something that the library holds: a context manager, closed at its end.

    Threads may share it: a lock lets one call in at a time. `close` may be called twice; afterwards every other method
    raises Closed. What was forgotten is closed when Python drops it.
    """

    def __init__(self, handle: Handle, free: str) -> None:
        self._lock = threading.Lock()
        self._handle = handle
        self._finalizer = weakref.finalize(self, _free, getattr(library(), free), handle)
        self._finalizer.atexit = False

    def _open(self) -> Handle:
        """The handle. Call it with the lock. Raises Closed."""
        if self._handle.there == 0:
            raise Closed(f"this {type(self).__name__} is closed")
        return self._handle

    @property
    def closed(self) -> bool:
        """It was closed, or its making failed."""
        return bool(self._handle.there == 0)

    def close(self) -> None:
        """Frees it. Does nothing where it was closed."""
        with self._lock:
            self._finalizer()

    def __enter__(self: Self) -> Self:
        with self._lock:
            self._open()
        return self

    def __exit__(
        self, kind: type[BaseException] | None, error: BaseException | None, trace: TracebackType | None
    ) -> None:
        self.close()
