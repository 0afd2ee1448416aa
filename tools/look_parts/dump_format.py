"""The fields of a dump in their order, by docs/dumps.md, and how each is written in JSON.

A field is its name, its size in bytes, and its form: how the number is shown and read.
"""
from ipaddress import AddressValueError, IPv4Address

MAGIC = b"MIGDUMP\x00"
VERSIONS = (1, 2)
MOST = {"domains": 64, "regions": 256, "completion_queues": 64, "queue_pairs": 64, "replies": 16}


class BadValue(Exception):
    """A value in JSON that is not in the form of its field."""


class Number:
    """A decimal number."""
    what = "a number"

    def show(self, n):
        return n

    def read(self, value):
        if type(value) is not int or value < 0:
            raise BadValue
        return value


class Hex(Number):
    """A key, an immediate or a queue pair number, in hexadecimal digits."""

    def __init__(self, digits):
        self.digits, self.what = digits, f"a text of {digits} hexadecimal digits"

    def show(self, n):
        return f"{n:0{self.digits}x}"

    def read(self, value):
        if type(value) is not str or len(value) < self.digits or any(c not in "0123456789abcdefABCDEF" for c in value):
            raise BadValue
        return int(value, 16)


class Flag(Number):
    """False or true for 0 and 1."""
    what = "false or true"

    def show(self, n):
        return bool(n)

    def read(self, value):
        if type(value) is not bool:
            raise BadValue
        return int(value)


class Named(Number):
    """A word for each number."""

    def __init__(self, words):
        self.words = words
        self.what = f"one of {', '.join(words.values())}"

    def show(self, n):
        return self.words[n]

    def read(self, value):
        numbers = [n for n, word in self.words.items() if word == value]
        if not numbers:
            raise BadValue
        return numbers[0]


class Flags(Number):
    """A list of words that are added up."""

    def __init__(self, words):
        self.words = words
        self.what = f"a list of some of {', '.join(words)}"

    def show(self, n):
        return [word for bit, word in enumerate(self.words) if n >> bit & 1]

    def read(self, value):
        if type(value) is not list or any(word not in self.words for word in value) or len(set(value)) != len(value):
            raise BadValue
        return sum(1 << self.words.index(word) for word in value)


class Rights(Flags):
    """Letters that are added up, or a hyphen for none."""
    what = "`-` or some of the letters l, w, r, a"

    def __init__(self):
        self.words = "lwra"

    def show(self, n):
        return "".join(super().show(n)) or "-"

    def read(self, value):
        if type(value) is not str:
            raise BadValue
        return super().read([] if value == "-" else list(value))


class Address(Number):
    """An IPv4 address."""
    what = "an IPv4 address"

    def show(self, n):
        return str(IPv4Address(n))

    def read(self, value):
        try:
            return int(IPv4Address(value if type(value) is str else ""))
        except AddressValueError:
            raise BadValue from None


NUMBER, KEY, PAIR, FLAG = Number(), Hex(8), Hex(6), Flag()
REQUEST_KINDS = {0: "write", 1: "send", 2: "read", 3: "cas", 4: "add"}
KINDS = Named(REQUEST_KINDS)
COMPLETIONS = Named({**REQUEST_KINDS, 5: "recv", 6: "recvimm"})
STATES = Named({0: "init", 1: "rts", 2: "error"})
STATUSES = (0, 1, 5, 9, 10, 12, 13)
SIGNALED, IMMEDIATE, FENCE = 1, 2, 4

REGION = [
    ("domain", 2, NUMBER), ("base", 8, NUMBER), ("length", 4, NUMBER), ("rights", 1, Rights()),
    ("local_key", 4, KEY), ("remote_key", 4, KEY)]
QUEUE = [("capacity", 4, NUMBER)]
ENTRY = [
    ("queue_pair", 4, PAIR), ("id", 8, NUMBER), ("kind", 1, COMPLETIONS), ("status", 1, NUMBER), ("length", 4, NUMBER),
    ("has_immediate", 1, FLAG), ("immediate", 4, KEY)]
QUEUE_PAIR = [
    ("number", 4, PAIR), ("domain", 2, NUMBER), ("send_queue", 2, NUMBER), ("receive_queue", 2, NUMBER),
    ("send_depth", 2, NUMBER), ("receive_depth", 2, NUMBER), ("state", 1, STATES)]
CONNECTION = [
    ("partner", 4, PAIR), ("address", 4, Address()), ("port", 2, NUMBER), ("moves", 2, NUMBER), ("partner_moves", 2, NUMBER),
    ("resuming", 1, FLAG), ("mtu", 2, NUMBER), ("own_start", 4, NUMBER), ("partner_start", 4, NUMBER), ("retry", 1, NUMBER),
    ("rnr", 1, NUMBER), ("reads", 1, NUMBER), ("first", 8, NUMBER), ("oldest", 8, NUMBER), ("next", 8, NUMBER),
    ("top", 8, NUMBER), ("expiries", 1, NUMBER), ("waits", 1, NUMBER), ("rnr_wait", 1, FLAG), ("expected", 8, NUMBER),
    ("nak_sent", 1, FLAG), ("messages", 4, NUMBER)]
NO_MESSAGE, SEND, WRITE = 0, 1, 2
PROGRESS = {
    SEND: [("done", 4, NUMBER)],
    WRITE: [("region", 2, NUMBER), ("offset", 4, NUMBER), ("length", 4, NUMBER), ("done", 4, NUMBER)],
}
PROGRESS_WORDS = {SEND: "send", WRITE: "write"}
PROGRESSES = Named({NO_MESSAGE: "none", **PROGRESS_WORDS})
REPLY = [("number", 8, NUMBER), ("old", 8, NUMBER)]
REQUEST = [
    ("id", 8, NUMBER), ("kind", 1, KINDS), ("flags", 1, Flags(["signaled", "immediate", "fence"])), ("immediate", 4, KEY),
    ("length", 4, NUMBER), ("local_key", 4, KEY), ("local_address", 8, NUMBER), ("remote_address", 8, NUMBER),
    ("remote_key", 4, KEY), ("swap_or_add", 8, NUMBER), ("compare", 8, NUMBER)]
RECEIVE = [("id", 8, NUMBER), ("local_key", 4, KEY), ("local_address", 8, NUMBER), ("length", 4, NUMBER)]


def takes_bytes(kind):
    """A WRITE or SEND, whose bytes stand in the dump."""
    return kind in (0, 1)
