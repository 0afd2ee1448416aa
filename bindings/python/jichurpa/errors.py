"""The exceptions of the module. Each is a JichurpaError.

The device is then as it was before the call, but where OutOfMemory has an image.
"""

from __future__ import annotations

from typing import TYPE_CHECKING

from .enums import DumpWhy, Refusal

if TYPE_CHECKING:
    from .images import Image


class JichurpaError(Exception):
    """Any error of this module."""


class LibraryNotFound(JichurpaError, OSError):
    """The shared library is not there, cannot be loaded, or has another interface than this module."""


class InvalidArgument(JichurpaError, ValueError):
    """An argument is out of its range, a text is no name, or a pair of arguments does not go together."""


class Closed(JichurpaError, ValueError):
    """A device, an image or a reader was closed."""


class NotHere(JichurpaError, LookupError):
    """A reader asked for a queue pair that does not live on the device."""


class OutOfMemory(JichurpaError, MemoryError):
    """The library could not take memory. Call again when there is some.

    `image` is None, but where a context was stopped and its bytes could not be made: then it is the image, which is
    nowhere else.
    """

    def __init__(self, message: str = "out of memory", image: Image | None = None) -> None:
        super().__init__(message)
        self.image = image


class Refused(JichurpaError):
    """The device refused a step, and nothing has changed. `cause` says why."""

    def __init__(self, cause: Refusal) -> None:
        super().__init__(f"refused {cause.word}")
        self.cause = cause


class BadDump(JichurpaError, ValueError):
    """Bytes are no dump. `why` is the first fault, and `place` its place in bytes from 0."""

    def __init__(self, place: int, why: DumpWhy) -> None:
        super().__init__(f"bad dump at byte {place}: {why.name.lower()}")
        self.place = place
        self.why = why
