"""The words of a line with their columns, and readers of one word."""

from __future__ import annotations

import re
from typing import NamedTuple

from ..enums import MTUS, Rights
from ..errors import InvalidArgument
from ..values import Address, is_name

_DECIMAL = re.compile("0|[1-9][0-9]{0,19}")
_HEX = re.compile("[0-9a-fA-F]+")
_LETTERS = {
    "l": Rights.LOCAL_WRITE,
    "w": Rights.REMOTE_WRITE,
    "r": Rights.REMOTE_READ,
    "a": Rights.REMOTE_ATOMIC,
}
MAX_U32 = (1 << 32) - 1
MAX_U64 = (1 << 64) - 1


class BadLine(Exception):
    """A line in no form: the column in bytes from 1, and the reason."""

    def __init__(self, column: int, why: str) -> None:
        super().__init__(f"column {column} {why}")
        self.column = column
        self.why = why


class ObjectName(NamedTuple):
    """The name of a thing, with that of its context."""

    context: str
    name: str

    def __str__(self) -> str:
        return f"{self.context}.{self.name}"


class Word(NamedTuple):
    """A word and its column in the line, from 1."""

    column: int
    text: str


class Words:
    """The words of a line that are still to be read. Each reader raises BadLine where the next word is not as it must be."""

    def __init__(self, line: str) -> None:
        self._words = [Word(found.start() + 1, found.group()) for found in re.finditer("[^ ]+", line)]
        self._past = len(line) + 1
        self._read = 0

    def take(self) -> Word:
        """The next word."""
        if self._read == len(self._words):
            raise BadLine(self._past, "missing")
        self._read += 1
        return self._words[self._read - 1]

    def takes(self, text: str) -> bool:
        """Whether this word stands next; it is then passed."""
        stands = self._read < len(self._words) and self._words[self._read].text == text
        self._read += stands
        return stands

    def end(self) -> None:
        """No words are left."""
        if self._read < len(self._words):
            raise BadLine(self._words[self._read].column, "extra")

    def empty(self) -> bool:
        """The line has no words."""
        return not self._words

    # ---- one word

    def label(self, text: str) -> None:
        """This word."""
        word = self.take()
        if word.text != text:
            raise BadLine(word.column, "option")

    def name(self) -> str:
        """A name."""
        word = self.take()
        if not is_name(word.text):
            raise BadLine(word.column, "name")
        return word.text

    def object(self) -> ObjectName:
        """An object: the name of its context, a dot, and its own name."""
        word = self.take()
        context, dot, name = word.text.partition(".")
        if not dot or not is_name(context) or not is_name(name):
            raise BadLine(word.column, "name")
        return ObjectName(context, name)

    def number(self, low: int, high: int) -> int:
        """A number from low to high."""
        word = self.take()
        number = number_of(word.text, low, high)
        if number is None:
            raise BadLine(word.column, "number")
        return number

    def long(self) -> int:
        """A number of 64 bits."""
        return self.number(0, MAX_U64)

    def short(self) -> int:
        """A number of 32 bits."""
        return self.number(0, MAX_U32)

    def device(self) -> int:
        """The id of a device."""
        return self.number(1, 255)

    def mtu(self) -> int:
        """An MTU."""
        word = self.take()
        number = number_of(word.text, MTUS[0], MTUS[-1])
        if number not in MTUS:
            raise BadLine(word.column, "number")
        return number

    def key(self) -> int:
        """A key or an immediate, of eight hexadecimal digits."""
        word = self.take()
        if len(word.text) != 8 or not _HEX.fullmatch(word.text):
            raise BadLine(word.column, "hex")
        return int(word.text, 16)

    def bytes(self) -> bytes:
        """Bytes, of 2 to 8,192 hexadecimal digits."""
        word = self.take()
        if len(word.text) % 2 != 0 or len(word.text) > 8192 or not _HEX.fullmatch(word.text):
            raise BadLine(word.column, "hex")
        return bytes.fromhex(word.text)

    def rights(self) -> Rights:
        """Rights: `-` for none, or some of l, w, r and a in this order."""
        word = self.take()
        if word.text == "-":
            return Rights.NONE
        if not re.fullmatch("l?w?r?a?", word.text):
            raise BadLine(word.column, "rights")
        rights = Rights.NONE
        for letter in word.text:
            rights |= _LETTERS[letter]
        return rights

    def address(self) -> Address:
        """An IPv4 address, and perhaps a colon and a port."""
        word = self.take()
        try:
            return Address.parse(word.text)
        except InvalidArgument:
            raise BadLine(word.column, "address") from None


def number_of(text: str, low: int, high: int) -> int | None:
    """The number that decimal digits without sign or leading zero spell, where it is from low to high."""
    if not _DECIMAL.fullmatch(text):
        return None
    number = int(text)
    return number if low <= number <= high else None
