"""Images of stopped contexts, as bytes and back."""

from __future__ import annotations

import ctypes
from ctypes import byref

from .enums import Result
from .errors import OutOfMemory
from .held import Held, check
from .library import ImageHandle, Name, RawEnd, RawFault, ReaderHandle, library
from .values import QueuePairInfo, u64


class Image(Held):
    """The image of a stopped context: `bytes(image)` is its dump, which is what is carried to another machine.

    `Image.decode` reads a dump. An image keeps memory until it is closed; use it as a context manager.
    """

    def __init__(self) -> None:
        super().__init__(ImageHandle(), "jichurpa_image_free")

    @classmethod
    def decode(cls, data: bytes) -> Image:
        """The image that bytes are a dump of, in version 1 or 2.

        Raises BadDump with the first fault where they are no dump, and OutOfMemory.
        """
        image = cls()
        fault = RawFault()
        data = bytes(data)
        check(library().jichurpa_image_decode(data, len(data), byref(image._handle), byref(fault)), fault)
        return image

    @property
    def name(self) -> str:
        """The name of the context."""
        name = Name()
        with self._lock:
            check(library().jichurpa_image_name(byref(self._open()), byref(name)))
        return str(name.bytes, "ascii")

    @property
    def length(self) -> int:
        """How many bytes the dump has."""
        length = ctypes.c_uint64()
        with self._lock:
            check(library().jichurpa_image_length(byref(self._open()), byref(length)))
        return length.value

    def read(self, place: int, count: int) -> bytes:
        """At most `count` bytes of the dump from `place` on; fewer only at its end.

        Each call goes through the image from its beginning, so few large pieces are faster than many small ones. Raises
        OutOfMemory where there is no room for the bytes.
        """
        got = ctypes.c_uint64()
        try:
            room = ctypes.create_string_buffer(max(u64(count, "count"), 1))
            with self._lock:
                check(library().jichurpa_image_read(byref(self._open()), u64(place, "place"), room, count, byref(got)))
            return ctypes.string_at(room, got.value)
        except MemoryError as fault:
            raise OutOfMemory from fault

    def __bytes__(self) -> bytes:
        return self.read(0, self.length)

    def queue_pairs(self) -> list[QueuePairInfo]:
        """The queue pairs of the context, in order of making. `last`, `may_send` and `in_flight` of them are 0."""
        told: list[QueuePairInfo] = []
        end = RawEnd()
        with self._lock:
            while (result := library().jichurpa_image_end(byref(self._open()), len(told), byref(end))) == Result.OK:
                told.append(QueuePairInfo.from_raw(end))
        if result != Result.NONE:
            check(result)
        return told


class DumpReader(Held):
    """A reader of a dump that comes in pieces of any lengths. Use it as a context manager."""

    def __init__(self) -> None:
        super().__init__(ReaderHandle(), "jichurpa_reader_free")
        check(library().jichurpa_reader_make(byref(self._handle)))

    def feed(self, data: bytes) -> None:
        """Takes more bytes. Raises BadDump as soon as no dump begins with what came, and OutOfMemory with no byte taken."""
        fault = RawFault()
        data = bytes(data)
        with self._lock:
            check(library().jichurpa_reader_feed(byref(self._open()), data, len(data), byref(fault)), fault)

    def finish(self) -> Image:
        """The image that all bytes are a dump of. The reader then has no bytes, and may be fed anew.

        Raises BadDump, and OutOfMemory; its bytes are lost then, so keep them where they must not be.
        """
        image = Image()
        fault = RawFault()
        with self._lock:
            result = library().jichurpa_reader_finish(byref(self._open()), byref(image._handle), byref(fault))
        check(result, fault)
        return image
