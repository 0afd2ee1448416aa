"""Datagrams: what their bytes say, by docs/wire.md."""
from dataclasses import dataclass, field
from ipaddress import IPv4Address

# The extension headers, in the order in which they stand: name, bytes.
RETH = (("address", 8), ("rkey", 4), ("length", 4))
ATOMIC = (("address", 8), ("rkey", 4), ("swap_add", 8), ("compare", 8))
AETH = (("syndrome", 1), ("msn", 3))
OLD = (("old", 8),)
IMM = (("imm", 4),)
RESUME = (("count", 4), ("ip", 4), ("port", 2), ("zero", 2))

# Opcode -> name, extension headers, whether a payload may follow.
OPCODES = {
    0x00: ("SEND First", (), True),
    0x01: ("SEND Middle", (), True),
    0x02: ("SEND Last", (), True),
    0x03: ("SEND Last with immediate", IMM, True),
    0x04: ("SEND Only", (), True),
    0x05: ("SEND Only with immediate", IMM, True),
    0x06: ("WRITE First", RETH, True),
    0x07: ("WRITE Middle", (), True),
    0x08: ("WRITE Last", (), True),
    0x09: ("WRITE Last with immediate", IMM, True),
    0x0A: ("WRITE Only", RETH, True),
    0x0B: ("WRITE Only with immediate", RETH + IMM, True),
    0x0C: ("READ request", RETH, False),
    0x0D: ("READ response First", AETH, True),
    0x0E: ("READ response Middle", (), True),
    0x0F: ("READ response Last", AETH, True),
    0x10: ("READ response Only", AETH, True),
    0x11: ("ACK", AETH, False),
    0x12: ("ATOMIC ACK", AETH + OLD, False),
    0x13: ("CmpSwap", ATOMIC, False),
    0x14: ("FetchAdd", ATOMIC, False),
    0x1E: ("RESUME", RESUME, False),
    0x1F: ("RESUME_ACK", RESUME, False),
}
READ_REQUEST, ACKNOWLEDGE, FETCH_ADD, RESUME_OPCODE, RESUME_ACK_OPCODE = 0x0C, 0x11, 0x14, 0x1E, 0x1F
REQUESTS = frozenset([*range(0x00, 0x0D), 0x13, 0x14])
NAKS = {
    0: "NAK sequence error",
    1: "NAK invalid request",
    2: "NAK remote access error",
    3: "NAK remote operational error",
    5: "NAK_STOPPED",
}
BASE, CRC = 12, 4
MOST_PAYLOAD = 4096


@dataclass
class Offence:
    """Why bytes are no datagram, and where."""
    place: int
    why: str


@dataclass
class Packet:
    """What a datagram says."""
    opcode: int
    dest: int
    ack_request: bool
    psn: int
    fields: dict = field(default_factory=dict)
    payload: bytes = b""

    @property
    def is_request(self):
        return self.opcode in REQUESTS

    @property
    def is_moving(self):
        return self.opcode in (RESUME_OPCODE, RESUME_ACK_OPCODE)

    @property
    def is_nak_stopped(self):
        return self.opcode == ACKNOWLEDGE and self.kind == "NAK_STOPPED"

    @property
    def kind(self):
        """What the datagram is, in the words of the standard."""
        if self.opcode == ACKNOWLEDGE:
            code = self.fields["syndrome"]
            if code >> 5 & 3 == 1:
                return "RNR NAK"
            if code >> 5 & 3 == 3:
                return NAKS[code & 31]
        return OPCODES[self.opcode][0]

    @property
    def address(self):
        """The address in a message of moving: an IPv4 address as a number, and a port."""
        return self.fields["ip"], self.fields["port"]


def shown_address(address, always=False):
    """An address as scripts write it; the port 4791 is left out unless it is always to stand."""
    ip, port = address
    return f"{IPv4Address(ip)}:{port}" if always or port != 4791 else str(IPv4Address(ip))


def width_of(headers):
    return sum(width for _, width in headers)


def is_syndrome(opcode, byte):
    """The syndrome may stand under this opcode."""
    kind, code = byte >> 5 & 3, byte & 31
    return kind == 0 or opcode == ACKNOWLEDGE and (kind == 1 or kind == 3 and code in NAKS)


def offence_of(data):
    """The first offence of bytes that are no datagram, or None."""
    if len(data) < BASE + CRC:
        return Offence(len(data), "short")
    if data[0] not in OPCODES:
        return Offence(0, "opcode")
    _, headers, may_carry = OPCODES[data[0]]
    if data[1] & 15:
        return Offence(1, "version")
    body = len(data) - BASE - CRC - width_of(headers)
    if body < 0:
        return Offence(len(data), "short")
    if headers[:2] == AETH and not is_syndrome(data[0], data[BASE]):
        return Offence(BASE, "syndrome")
    if body and not may_carry or body % 4 or body > MOST_PAYLOAD:
        return Offence(BASE + width_of(headers), "length")
    if body < data[1] >> 4 & 3:
        return Offence(1, "pad")
    return None


def read_datagram(data):
    """The packet that the bytes spell, or their first offence."""
    offence = offence_of(data)
    if offence:
        return offence
    opcode, at, fields = data[0], BASE, {}
    for name, width in OPCODES[opcode][1]:
        fields[name] = int.from_bytes(data[at:at + width], "big")
        at += width
    moving = opcode in (RESUME_OPCODE, RESUME_ACK_OPCODE)
    return Packet(
        opcode=opcode, dest=int.from_bytes(data[5:8], "big"), ack_request=data[8] >= 128,
        psn=0 if moving else int.from_bytes(data[9:12], "big"), fields=fields,
        payload=data[at:len(data) - CRC - (data[1] >> 4 & 3)])


def write_datagram(packet):
    """The one spelling of a packet: every ignored field as it is written."""
    pad = -len(packet.payload) % 4
    data = bytearray([packet.opcode, 16 * pad, 0xFF, 0xFF, 0])
    data += packet.dest.to_bytes(3, "big") + bytes([128 * packet.ack_request]) + packet.psn.to_bytes(3, "big")
    for name, width in OPCODES[packet.opcode][1]:
        value = packet.fields[name]
        if name == "syndrome":
            value = (0x1F, 0x20, 0, 0x60 + (value & 31))[value >> 5 & 3]
        elif name == "zero" or name == "compare" and packet.opcode == FETCH_ADD:
            value = 0
        data += value.to_bytes(width, "big")
    return bytes(data + packet.payload + bytes(pad + CRC))
