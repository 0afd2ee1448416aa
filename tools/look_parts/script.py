"""A script: its lines, their words, and the forms that docs/scripts.md gives them."""
import sys
from dataclasses import dataclass, field
from pathlib import Path

from .errors import LookError

MOST_LINE = 8400


@dataclass
class Word:
    """A word and the column of its first byte, counted from 1."""
    text: str
    column: int


@dataclass
class Line:
    """A line of a script: its number, its bytes without the end, its words."""
    number: int
    raw: bytes
    words: list = field(default_factory=list)

    @property
    def text(self):
        """The line to be shown; bytes outside 32 to 126 are written as \\xNN."""
        return "".join(chr(b) if 32 <= b <= 126 else f"\\x{b:02x}" for b in self.raw)

    @property
    def is_blank(self):
        return not self.words or self.words[0].text.startswith("#")

    @property
    def verb(self):
        return "" if self.is_blank else self.words[0].text

    @property
    def rest(self):
        """The texts of the words behind the verb."""
        return [word.text for word in self.words[1:]]


def words_of(raw):
    """The words of a line, which spaces alone separate."""
    words, column = [], 1
    for part in raw.decode("latin-1").split(" "):
        if part:
            words.append(Word(part, column))
        column += len(part) + 1
    return words


def lines_of(script):
    """The lines of a script (bytes). A carriage return goes only where a newline follows it."""
    parts = script.split(b"\n")
    last = parts.pop()
    whole = [part[:-1] if part.endswith(b"\r") else part for part in parts]
    if last:
        whole.append(last)
    return [Line(number, raw, words_of(raw)) for number, raw in enumerate(whole, 1)]


def read_bytes(name):
    """The bytes of a file, or of standard input where the name is a hyphen."""
    try:
        return sys.stdin.buffer.read() if name == "-" else Path(name).read_bytes()
    except OSError as fault:
        raise LookError(f"{name}: {fault.strerror}") from None


# ---- the forms of lines

BELOW_64 = (0, 2**64 - 1)
BELOW_32 = (0, 2**32 - 1)
BELOW_24 = (0, 2**24 - 1)

# What may stand at a place: the name of the place, its kind, and for a number its range.
POST = [("O", "object"), ("id", BELOW_64), ("lkey", "key"), ("address", BELOW_64)]
REMOTE = [("raddress", BELOW_64), ("rkey", "key")]
DEVICE = ("id", (1, 255))
NUMBER = [("k", BELOW_64)]
QUEUE_PAIR = [("O", "object")]
CONTEXT = [("N", "name")]

FORMS = {
    "device": [DEVICE, ("address", "address")],
    "context": [("N", "name"), DEVICE],
    "domain": [("O", "object")],
    "region": [("O", "object"), ("domain", "object"), ("base", (0, 2**63)), ("length", (1, 16_777_216)), ("rights", "rights")],
    "cq": [("O", "object"), ("capacity", (1, 16_384))],
    "qp": [("O", "object"), ("domain", "object"), ("sendcq", "object"), ("recvcq", "object"), ("sdepth", (1, 256)), ("rdepth", (1, 256))],
    "connect": [
        ("O", "object"), ("O", "object"), ("mtu", "option"), ("m", "mtu"), ("psn", "option"), ("x", BELOW_24), ("y", BELOW_24),
        ("retry", "option"), ("r", (0, 7)), ("rnr", "option"), ("w", (0, 7)), ("reads", "option"), ("n", (1, 16))],
    "drop": [("O", "object")],
    "store": [("region", "object"), ("address", BELOW_64), ("bytes", "bytes")],
    "load": [("region", "object"), ("address", BELOW_64), ("length", (1, 4096))],
    "write": [*POST, ("length", BELOW_32), *REMOTE],
    "send": [*POST, ("length", BELOW_32)],
    "read": [*POST, ("length", BELOW_32), *REMOTE],
    "cas": [*POST, *REMOTE, ("compare", BELOW_64), ("swap", BELOW_64)],
    "add": [*POST, *REMOTE, ("value", BELOW_64)],
    "recv": [*POST, ("length", BELOW_32)],
    "poll": [("cq", "object"), ("max", (1, 256))],
    "go": QUEUE_PAIR,
    "expire": QUEUE_PAIR,
    "rnr": QUEUE_PAIR,
    "deliver": NUMBER,
    "lose": NUMBER,
    "wire": NUMBER,
    "settle": [],
    "stop": CONTEXT,
    "restore": [("N", "name"), DEVICE],
    "release": [("N", "name"), DEVICE],
    "dump": CONTEXT,
}

# The options that may follow, in their order.
OPTIONS = {verb: ["fence", "quiet"] for verb in ("read", "cas", "add")}
OPTIONS |= {verb: ["imm", "fence", "quiet"] for verb in ("write", "send")}

REQUESTS = ("write", "send", "read", "cas", "add")


# The lines of a node: those of an application, and these.
SHARED = (
    "domain", "region", "cq", "qp", "drop", "store", "load", "write", "send", "read", "cas", "add", "recv", "poll", "go", "expire", "rnr")
TERMS = FORMS["connect"][2:]
NODE_FORMS = {verb: FORMS[verb] for verb in SHARED} | {
    "context": CONTEXT,
    "link": [
        ("O", "object"), ("number", "number"), ("address", "address"), *TERMS[:3], ("own", BELOW_24), ("peer", BELOW_24), *TERMS[5:]],
    "stop": [("N", "name"), ("file", "name")],
    "restore": [("file", "name")],
    "release": CONTEXT,
    "serve": [("turns", (1, 100_000))],
}


def form_of(verb, forms=FORMS):
    """The form of a line as docs/scripts.md writes it."""
    places = " ".join(name for name, _ in forms[verb])
    options = "".join(f" [{'imm i' if option == 'imm' else option}]" for option in OPTIONS.get(verb, []))
    return f"{verb} {places}".rstrip() + options
