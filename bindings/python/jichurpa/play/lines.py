"""The lines of a script: what a line says, or the first thing that is wrong with it."""

from __future__ import annotations

from collections.abc import Callable, Iterator
from typing import NamedTuple

from ..enums import MAX_BASE, MAX_CAPACITY, MAX_DEPTH, MAX_PSN, MAX_REGION
from ..values import Receive, Terms, WorkRequest
from .words import BadLine, Words

MAX_SCRIPT = 1048576
LONGEST_LINE = 8400
MAX_LOAD = 4096
MAX_POLL = 256

Fields = tuple[object, ...]


class Line(NamedTuple):
    """The first word of a line, and what the words behind it say."""

    word: str
    fields: Fields


def script_lines(text: bytes) -> Iterator[bytes]:
    """The lines of a script, without their ends. The last line may lack its newline, and then keeps its bytes."""
    *ended, last = text.split(b"\n")
    for line in ended:
        yield line[:-1] if line.endswith(b"\r") else line
    if last:
        yield last


def parse_line(line: bytes) -> Line | None:
    """What a line says, or None where it is blank. Raises BadLine."""
    if len(line) > LONGEST_LINE:
        raise BadLine(LONGEST_LINE + 1, "long")
    for place, byte in enumerate(line):
        if not 32 <= byte <= 126:
            raise BadLine(place + 1, "ascii")
    words = Words(line.decode("ascii"))
    if words.empty():
        return None
    first = words.take()
    if first.text.startswith("#"):
        return None
    if first.text not in FORMS:
        raise BadLine(first.column, "word")
    fields = FORMS[first.text](words)
    words.end()
    return Line(first.text, fields)


# ---- what stands behind the first word


def _object(w: Words) -> Fields:
    return (w.object(),)


def _number(w: Words) -> Fields:
    return (w.long(),)


def _name(w: Words) -> Fields:
    return (w.name(),)


def _placed(w: Words) -> Fields:
    return w.name(), w.device()


def _device(w: Words) -> Fields:
    return w.device(), w.address()


def _settle(w: Words) -> Fields:
    return ()


def _region(w: Words) -> Fields:
    return w.object(), w.object(), w.number(0, MAX_BASE), w.number(1, MAX_REGION), w.rights()


def _cq(w: Words) -> Fields:
    return w.object(), w.number(1, MAX_CAPACITY)


def _qp(w: Words) -> Fields:
    return w.object(), w.object(), w.object(), w.object(), w.number(1, MAX_DEPTH), w.number(1, MAX_DEPTH)


def _terms(w: Words) -> Terms:
    """`mtu` m `psn` own peer `retry` r `rnr` w `reads` n."""
    w.label("mtu")
    mtu = w.mtu()
    w.label("psn")
    own, peer = w.number(0, MAX_PSN), w.number(0, MAX_PSN)
    w.label("retry")
    retry = w.number(0, 7)
    w.label("rnr")
    rnr = w.number(0, 7)
    w.label("reads")
    return Terms(mtu, own, peer, retry, rnr, w.number(1, 16))


def _connect(w: Words) -> Fields:
    return w.object(), w.object(), _terms(w)


def _store(w: Words) -> Fields:
    return w.object(), w.long(), w.bytes()


def _load(w: Words) -> Fields:
    return w.object(), w.long(), w.number(1, MAX_LOAD)


def _poll(w: Words) -> Fields:
    return w.object(), w.number(1, MAX_POLL)


def _imm(w: Words) -> int | None:
    return w.key() if w.takes("imm") else None


def _options(w: Words) -> dict[str, bool]:
    """`fence`, then `quiet`."""
    return {"fence": w.takes("fence"), "signaled": not w.takes("quiet")}


def _write(w: Words) -> Fields:
    end, head = w.object(), (w.long(), w.key(), w.long(), w.short(), w.long(), w.key())
    return end, WorkRequest.write(*head, _imm(w), **_options(w))


def _send(w: Words) -> Fields:
    end, head = w.object(), (w.long(), w.key(), w.long(), w.short())
    return end, WorkRequest.send(*head, _imm(w), **_options(w))


def _read(w: Words) -> Fields:
    end, head = w.object(), (w.long(), w.key(), w.long(), w.short(), w.long(), w.key())
    return end, WorkRequest.read(*head, **_options(w))


def _cas(w: Words) -> Fields:
    end, head = w.object(), (w.long(), w.key(), w.long(), w.long(), w.key(), w.long(), w.long())
    return end, WorkRequest.compare_swap(*head, **_options(w))


def _add(w: Words) -> Fields:
    end, head = w.object(), (w.long(), w.key(), w.long(), w.long(), w.key(), w.long())
    return end, WorkRequest.fetch_add(*head, **_options(w))


def _recv(w: Words) -> Fields:
    end = w.object()
    return end, Receive(w.long(), w.key(), w.long(), w.short())


FORMS: dict[str, Callable[[Words], Fields]] = {
    "device": _device,
    "context": _placed,
    "domain": _object,
    "region": _region,
    "cq": _cq,
    "qp": _qp,
    "connect": _connect,
    "drop": _object,
    "store": _store,
    "load": _load,
    "write": _write,
    "send": _send,
    "read": _read,
    "cas": _cas,
    "add": _add,
    "recv": _recv,
    "poll": _poll,
    "go": _object,
    "deliver": _number,
    "lose": _number,
    "wire": _number,
    "expire": _object,
    "rnr": _object,
    "settle": _settle,
    "stop": _name,
    "restore": _placed,
    "release": _placed,
    "dump": _name,
}
