"""The enumerations and limits of the library, under the numbers of jichurpa.h."""

from enum import IntEnum, IntFlag

ABI = 1
NAME_BYTES = 16
MAX_DATAGRAM = 4132
MAX_BASE = 1 << 63
MAX_REGION = 16777216
MAX_CAPACITY = 16384
MAX_DEPTH = 256
MAX_MESSAGE = 1048576
MAX_QP_NUMBER = 0xFFFFFF
MAX_PSN = 0xFFFFFF
PORT = 4791
MTUS = (256, 512, 1024, 2048, 4096)


class Result(IntEnum):
    """What a function of the library returns."""

    OK = 0
    NO_MEMORY = 1
    INVALID = 2
    BAD_DUMP = 3
    NONE = 4
    TOO_SMALL = 5


class Answer(IntEnum):
    """What a step of a device answers."""

    DONE = 1
    STOPPED = 2
    REGION = 3
    QP = 4
    BYTES = 5
    POLLED = 6
    SENT = 7
    IDLE = 8
    WINDOW_FULL = 9
    READS_FULL = 10
    FENCED = 11
    WAITING = 12
    TOOK = 13
    EXPIRED = 14
    SPENT = 15
    NOT_COUNTED = 16
    OVER = 17
    NOT_WAITING = 18
    REFUSED = 19


class Refusal(IntEnum):
    """Why a step is refused."""

    NO_SUCH = 1
    NUMBER_TAKEN = 2
    TOO_MANY = 3
    BAD_STATE = 4
    SQ_FULL = 5
    RQ_FULL = 6
    CQ_FULL = 7
    BAD_KEY = 8
    TOO_LONG = 9
    IN_USE = 10
    STOPPED = 11
    PEER_MOVING = 12
    SPENT = 13
    NO_PAGE = 14

    @property
    def word(self) -> str:
        """The word of a script's answer, such as NoSuch."""
        return "".join(part.capitalize() for part in self.name.split("_"))


class Took(IntEnum):
    """What an arriving datagram did."""

    ACTED = 1
    ACK = 2
    BYTES = 3
    OLD = 4
    SEQ_NAK = 5
    NOT_READY = 6
    DUP_ACK = 7
    REFUSED = 8
    ACKED = 9
    LANDED = 10
    REWOUND = 11
    WAITS = 12
    ENDED = 13
    STOPPED = 14
    PAUSED = 15
    RESUMED = 16
    RESUME_ACK = 17
    RUNNING = 18
    SILENT = 19


class Why(IntEnum):
    """Why a responder refuses a request: the detail of Took.REFUSED."""

    INVALID = 1
    ACCESS = 2
    LENGTH = 3


class SilentWhy(IntEnum):
    """Why a datagram has no effect: the detail of Took.SILENT."""

    MALFORMED = 1
    UNKNOWN = 2
    ENDED = 3
    PAUSED = 4
    NAK_SENT = 5
    NO_REPEAT = 6
    USELESS = 7
    STALE = 8


class NotCountedWhy(IntEnum):
    """Why an expiry is not counted."""

    ENDED = 1
    PAUSED = 2
    RESUMING = 3
    RNR = 4
    NOTHING = 5


class Kind(IntEnum):
    """The kind of a work request."""

    WRITE = 1
    SEND = 2
    READ = 3
    COMPARE_SWAP = 4
    FETCH_ADD = 5


class WcKind(IntEnum):
    """The kind of a completion."""

    WRITE = 1
    SEND = 2
    READ = 3
    COMPARE_SWAP = 4
    FETCH_ADD = 5
    RECV = 6
    RECV_IMM = 7


class WcStatus(IntEnum):
    """How a work request ended; the numbers are those of InfiniBand."""

    SUCCESS = 0
    LOCAL_LENGTH = 1
    FLUSH = 5
    REMOTE_INVALID = 9
    REMOTE_ACCESS = 10
    RETRY_EXCEEDED = 12
    RNR_EXCEEDED = 13


class State(IntEnum):
    """The state of a queue pair."""

    INIT = 1
    RUNNING = 2
    PAUSED = 3
    RESUMING = 4
    ERROR = 5


class DumpWhy(IntEnum):
    """Why bytes are no dump."""

    SHORT = 1
    MAGIC = 2
    VERSION = 3
    NAME = 4
    COUNT = 5
    FIELD = 6
    TRAILING = 7


class Rights(IntFlag):
    """What may be done with a memory region."""

    NONE = 0
    LOCAL_WRITE = 1
    REMOTE_WRITE = 2
    REMOTE_READ = 4
    REMOTE_ATOMIC = 8


class Flags(IntFlag):
    """The flags of a work request and of a completion."""

    NONE = 0
    SIGNALED = 1
    FENCE = 2
    HAS_IMM = 4
