"""The text of answers, by docs/scripts.md."""

import unittest

from jichurpa import (
    Address,
    Answer,
    Arrival,
    Completion,
    Datagram,
    Expiry,
    Keys,
    NotCountedWhy,
    Refusal,
    SilentWhy,
    Took,
    WcKind,
    WcStatus,
    Why,
)
from jichurpa.play import answers

TOOK = {
    Took.ACTED: "acted",
    Took.ACK: "ack",
    Took.BYTES: "bytes",
    Took.OLD: "old",
    Took.SEQ_NAK: "seqnak",
    Took.NOT_READY: "notready",
    Took.DUP_ACK: "dupack",
    Took.ACKED: "acked",
    Took.LANDED: "landed",
    Took.REWOUND: "rewound",
    Took.WAITS: "waits",
    Took.STOPPED: "stopped",
    Took.PAUSED: "paused",
    Took.RESUMED: "resumed",
    Took.RESUME_ACK: "resumeack",
    Took.RUNNING: "running",
}

DETAILS = [
    (Took.REFUSED, Why.INVALID, "refused invalid"),
    (Took.REFUSED, Why.ACCESS, "refused access"),
    (Took.REFUSED, Why.LENGTH, "refused length"),
    (Took.ENDED, WcStatus.REMOTE_ACCESS, "ended 10"),
    (Took.SILENT, SilentWhy.MALFORMED, "silent malformed"),
    (Took.SILENT, SilentWhy.UNKNOWN, "silent unknown"),
    (Took.SILENT, SilentWhy.ENDED, "silent ended"),
    (Took.SILENT, SilentWhy.PAUSED, "silent paused"),
    (Took.SILENT, SilentWhy.NAK_SENT, "silent naksent"),
    (Took.SILENT, SilentWhy.NO_REPEAT, "silent norepeat"),
    (Took.SILENT, SilentWhy.USELESS, "silent useless"),
    (Took.SILENT, SilentWhy.STALE, "silent stale"),
]

# The order of causes in the header.
REFUSALS = (
    "NoSuch NumberTaken TooMany BadState SqFull RqFull CqFull BadKey TooLong InUse Stopped PeerMoving Spent NoPage"
)


class Answers(unittest.TestCase):
    def test_took(self) -> None:
        self.assertEqual(set(TOOK) | {Took.REFUSED, Took.ENDED, Took.SILENT}, set(Took))
        for took, word in TOOK.items():
            self.assertEqual(answers.took_text(Arrival(took, None, []), 1), f"took {word}")
        for took, detail, word in DETAILS:
            self.assertEqual(answers.took_text(Arrival(took, detail, []), 1), f"took {word}")

    def test_sent(self) -> None:
        """The numbers of the datagrams that answer one."""
        one = Datagram(Address(1), b"")
        self.assertEqual(answers.took_text(Arrival(Took.ACK, None, [one]), 2), "took ack sent 2")
        self.assertEqual(answers.took_text(Arrival(Took.BYTES, None, [one] * 64), 4), "took bytes sent 4 to 67")

    def test_made(self) -> None:
        self.assertEqual(answers.region_text(Keys(0x01000002, 0x01000003)), "region 01000002 01000003")
        self.assertEqual(answers.qp_text(0x010001), "qp 010001")

    def test_completions(self) -> None:
        first = Completion(0x010001, 1, WcKind.WRITE, WcStatus.SUCCESS, 4, None)
        second = Completion(0x020001, 9, WcKind.RECV, WcStatus.SUCCESS, 4, 42)
        self.assertEqual(answers.polled_text([]), "none")
        self.assertEqual(
            answers.polled_text([first, second]), "wc 010001 1 write 0 4\nwc 020001 9 recv 0 4 imm 0000002a"
        )
        kinds = ["write", "send", "read", "cas", "add", "recv", "recvimm"]
        self.assertEqual([answers.KINDS[kind] for kind in WcKind], kinds)

    def test_held_back(self) -> None:
        words = {
            Answer.WAITING: "waiting",
            Answer.IDLE: "idle",
            Answer.WINDOW_FULL: "window",
            Answer.READS_FULL: "reads",
            Answer.FENCED: "fenced",
        }
        self.assertEqual(answers.HELD_BACK, words)

    def test_expiry(self) -> None:
        self.assertEqual(answers.expiry_text(Expiry(Answer.EXPIRED, 7, None)), "expired 7")
        self.assertEqual(answers.expiry_text(Expiry(Answer.SPENT, 0, None)), "spent")
        words = {why: answers.expiry_text(Expiry(Answer.NOT_COUNTED, 0, why)) for why in NotCountedWhy}
        self.assertEqual(
            words,
            {
                NotCountedWhy.ENDED: "notcounted ended",
                NotCountedWhy.PAUSED: "notcounted paused",
                NotCountedWhy.RESUMING: "notcounted resuming",
                NotCountedWhy.RNR: "notcounted rnr",
                NotCountedWhy.NOTHING: "notcounted nothing",
            },
        )

    def test_dump(self) -> None:
        """The bytes are shown up to 4,096 of them."""
        self.assertEqual(answers.dump_text(b"MIGTDUMP"), "dump 8 4d49475444554d50")
        self.assertEqual(answers.dump_text(bytes(4096)), "dump 4096 " + "00" * 4096)
        self.assertEqual(answers.dump_text(bytes(4097)), "dump 4097")

    def test_quiet(self) -> None:
        self.assertEqual(answers.quiet_text([]), "quiet 0")
        self.assertEqual(answers.quiet_text([("a.q", "noreceive")]), "quiet 1\nleft a.q noreceive")

    def test_refusals(self) -> None:
        self.assertEqual([cause.word for cause in Refusal], REFUSALS.split())
