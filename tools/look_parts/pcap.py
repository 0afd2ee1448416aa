"""look pcap: a capture of every datagram of a script, in the order in which they were sent.

Each datagram is a frame: Ethernet, IPv4 and UDP around the bytes that `wire` shows, whose last four, the ICRC, are 0 by
docs/wire.md. The addresses and ports are those of the devices. A script has no clock, so the time of a frame tells the
line that sent it: line 17 sends at second 17, and its datagrams follow each other by a microsecond.
"""
import struct
import sys
from pathlib import Path

from .early import status_of
from .errors import LookError
from .evacuation import script_asked
from .flights import Story

ETHERNET = 1
MOST_FRAME = 65_535
IPV4, UDP = 0x0800, 17
DO_NOT_FRAGMENT = 0x4000
TIME_TO_LIVE = 64


def checksum(header):
    """The checksum of an IPv4 header: the ones' complement of the ones' complement sum of its words."""
    total = sum(struct.unpack(f"!{len(header) // 2}H", header))
    while total >> 16:
        total = (total & 0xFFFF) + (total >> 16)
    return ~total & 0xFFFF


def hardware_address(ip):
    """A locally administered Ethernet address that holds the IPv4 address."""
    return b"\x02\x00" + ip.to_bytes(4, "big")


def ipv4_header(start, end, length, number):
    """A header without options for so many bytes behind it."""
    fields = [0x45, 0, 20 + length, number & 0xFFFF, DO_NOT_FRAGMENT, TIME_TO_LIVE, UDP, 0, start.to_bytes(4, "big"), end.to_bytes(4, "big")]
    form = "!BBHHHBBH4s4s"
    fields[7] = checksum(struct.pack(form, *fields))
    return struct.pack(form, *fields)


def frame(flight):
    """The Ethernet frame of a datagram. The UDP checksum is 0: none was made."""
    (start, start_port), (end, end_port) = flight.from_address, flight.to_address
    datagram = struct.pack("!HHHH", start_port, end_port, 8 + len(flight.data), 0) + flight.data
    header = ipv4_header(start, end, len(datagram), flight.number)
    return hardware_address(end) + hardware_address(start) + struct.pack("!H", IPV4) + header + datagram


def capture(flights):
    """The bytes of a capture file."""
    parts = [struct.pack("<IHHiIII", 0xA1B2C3D4, 2, 4, 0, 0, MOST_FRAME, ETHERNET)]
    line, place = 0, 0
    for flight in flights:
        place = place + 1 if flight.line == line else 0
        line = flight.line
        data = frame(flight)
        parts.append(struct.pack("<IIII", line, place, len(data), len(data)) + data)
    return b"".join(parts)


def write_output(name, data, told):
    """Writes a file, or standard output where the name is a hyphen, and says what was written."""
    if name == "-":
        sys.stdout.buffer.write(data)
        return
    try:
        Path(name).write_bytes(data)
    except OSError as fault:
        raise LookError(f"{name}: {fault.strerror}") from None
    print(f"{name}: {told}")


def pcap(program, asked):
    """The subcommand."""
    story = Story(program, script_asked(program, asked))
    status = status_of(story.played, asked.script)
    known = [flight for flight in story.flights.values() if flight.data is not None]
    data = capture(known)
    left = len(story.flights) - len(known)
    note = f", and {left} that the network kept no more are left out" if left else ""
    write_output(asked.file, data, f"{len(known)} datagrams{note}")
    return status
