"""Reading a capture in pcap form, as `tcpdump -w FILE` and `tshark -F pcap -w FILE` write it: the UDP payloads over IPv4."""
import struct

from .errors import LookError

# The first four bytes of a file: their order, and the same with times in nanoseconds.
ORDERS = {b"\xd4\xc3\xb2\xa1": "<", b"\x4d\x3c\xb2\xa1": "<", b"\xa1\xb2\xc3\xd4": ">", b"\xa1\xb2\x3c\x4d": ">"}
# The kinds of frames: how many bytes stand before the IP header, and where among them the protocol is told (None: nowhere).
LINKS = {0: (4, None), 1: (14, 12), 12: (0, None), 101: (0, None), 113: (16, 14), 276: (20, 0)}
IPV4, UDP = 0x0800, 17
HEAD, RECORD = 24, 16


def frames_of(data, name):
    """The kind of the frames, and their bytes one after the other."""
    order = ORDERS.get(data[:4])
    if order is None or len(data) < HEAD:
        raise LookError(f"{name} is no capture in pcap form; `tshark -F pcap -w FILE` and `tcpdump -w FILE` write one")
    kind, frames, at = struct.unpack(order + "I", data[20:24])[0] & 0xFFFF, [], HEAD
    while at + RECORD <= len(data):
        size = struct.unpack(order + "I", data[at + 8:at + 12])[0]
        frames.append(data[at + RECORD:at + RECORD + size])
        at += RECORD + size
    return kind, frames


def packets_of(data, name):
    """Of each whole UDP datagram over IPv4: the address that it comes from, the one that it goes to, and its payload."""
    for _, start, end, payload in numbered_packets_of(data, name):
        yield start, end, payload


def numbered_packets_of(data, name):
    """The same behind the number of the frame, counted from 1 as Wireshark does."""
    kind, frames = frames_of(data, name)
    if kind not in LINKS:
        raise LookError(f"{name} has frames of the kind {kind}; known are {', '.join(map(str, LINKS))}")
    before, protocol = LINKS[kind]
    for number, frame in enumerate(frames, 1):
        ip = frame[before:]
        if protocol is not None and int.from_bytes(frame[protocol:protocol + 2], "big") != IPV4:
            continue
        length = 4 * (ip[0] & 15) if ip and ip[0] >> 4 == 4 else 0
        # A piece of a datagram that was cut up has an offset, or says that more follow.
        if length < 20 or len(ip) < length + 8 or ip[9] != UDP or int.from_bytes(ip[6:8], "big") & 0x3FFF:
            continue
        udp = ip[length:]
        start, end, size = struct.unpack("!HHH", udp[:6])
        yield number, (int.from_bytes(ip[12:16], "big"), start), (int.from_bytes(ip[16:20], "big"), end), udp[8:size]
