"""The text of answers, as docs/scripts.md has it: lines without their newline."""

from __future__ import annotations

from ..enums import Answer, NotCountedWhy, SilentWhy, Took, WcKind, WcStatus, Why
from ..values import Arrival, Completion, Expiry, Keys

OK = "ok"

KINDS = {
    WcKind.WRITE: "write",
    WcKind.SEND: "send",
    WcKind.READ: "read",
    WcKind.COMPARE_SWAP: "cas",
    WcKind.FETCH_ADD: "add",
    WcKind.RECV: "recv",
    WcKind.RECV_IMM: "recvimm",
}

# Why `go` sent nothing.
HELD_BACK = {
    Answer.IDLE: "idle",
    Answer.WINDOW_FULL: "window",
    Answer.READS_FULL: "reads",
    Answer.FENCED: "fenced",
    Answer.WAITING: "waiting",
}


def _joined(word: Took | SilentWhy | NotCountedWhy | Why) -> str:
    """The name of an enumerator as one word, such as seqnak."""
    return word.name.replace("_", "").lower()


def region_text(keys: Keys) -> str:
    """The keys of a region that was made."""
    return f"region {keys.local:08x} {keys.remote:08x}"


def qp_text(number: int) -> str:
    """The number of a queue pair that was made."""
    return f"qp {number:06x}"


def completion_text(c: Completion) -> str:
    """A completion: queue pair, id, kind, status, length, and the immediate where there is one."""
    imm = "" if c.imm is None else f" imm {c.imm:08x}"
    return f"wc {c.qp:06x} {c.id} {KINDS[c.kind]} {int(c.status)} {c.length}{imm}"


def polled_text(completions: list[Completion]) -> str:
    """A line for each completion, or `none`."""
    return "\n".join(completion_text(c) for c in completions) or "none"


def sent_text(first: int, count: int) -> str:
    """The numbers of datagrams that were sent, after a space: none, the one, or the first and the last."""
    if count == 0:
        return ""
    return f" sent {first}" if count == 1 else f" sent {first} to {first + count - 1}"


def took_text(arrival: Arrival, first: int) -> str:
    """What a delivered datagram did, where what answers it begins with datagram `first`."""
    detail = arrival.detail
    if detail is None:
        more = ""
    elif isinstance(detail, WcStatus):
        more = f" {int(detail)}"
    else:
        more = f" {_joined(detail)}"
    return f"took {_joined(arrival.took)}{more}{sent_text(first, len(arrival.sent))}"


def expiry_text(expiry: Expiry) -> str:
    """What an expiry of the retransmission timer did."""
    if expiry.answer == Answer.EXPIRED:
        return f"expired {expiry.count}"
    return "spent" if expiry.why is None else f"notcounted {_joined(expiry.why)}"


def dump_text(data: bytes, most_shown: int = 4096) -> str:
    """The length of a dump, and its bytes where they are not too many."""
    return f"dump {len(data)}" if len(data) > most_shown else f"dump {len(data)} {data.hex()}"


def quiet_text(left: list[tuple[str, str]]) -> str:
    """How many queue pairs settling left unfinished, and a line for each: its name and the reason."""
    return "\n".join([f"quiet {len(left)}", *(f"left {end} {why}" for end, why in left)])
