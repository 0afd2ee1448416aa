"""look check: the first datagram of a capture that the protocol would not send or answer so."""
import json
from collections import Counter

from .captures import numbered_packets_of
from .datagrams import Offence, read_datagram, shown_address
from .errors import LookError
from .script import read_bytes
from .wire_rules import RULES, Broken, Half, sends
from .world import address_of

BROKEN = 13
FORM = "NUMBER ADDRESS NUMBER ADDRESS mtu M psn X Y [reads N]"
TRANSPORT = 0xE0  # these bits of the opcode are 0 in a reliable connection
MTUS, MOST_READS = (256, 512, 1024, 2048, 4096), 16


def number_in(word, low, high, what):
    if not word.isdigit() or not low <= int(word) <= high:
        raise LookError(f"--connection: {what} is {word!r}, and its range is {low} to {high}")
    return int(word)


def end_number(word):
    try:
        return int(word, 16) if len(word) == 6 else int("", 16)
    except ValueError:
        raise LookError(f"--connection: {word!r} is no number of a queue pair, which has six hexadecimal digits") from None


def end_address(word):
    try:
        return address_of(word)
    except ValueError:
        raise LookError(f"--connection: {word!r} is no address") from None


def halves_of(words):
    """The two ends of a connection by its terms."""
    if len(words) not in (9, 11) or [words[4], words[6], *words[9:10]] != ["mtu", "psn", "reads"][:2 + (len(words) == 11)]:
        raise LookError(f"--connection takes {FORM}, and not {' '.join(words)}")
    mtu, reads = number_in(words[5], 256, 4096, "mtu"), number_in(words[10], 1, MOST_READS, "reads") if len(words) == 11 else 0
    if mtu not in MTUS:
        raise LookError(f"--connection: mtu is {mtu}, and may be {', '.join(map(str, MTUS))}")
    one, two = (
        Half(end_number(number), end_address(address), number_in(psn, 0, 2**24 - 1, "psn"), mtu, reads)
        for number, address, psn in ((words[0], words[1], words[7]), (words[2], words[3], words[8])))
    one.partner, two.partner = two, one
    one.partner_address, two.partner_address = two.home, one.home
    return one, two


def ends_of(connections):
    """The ends of all connections by their numbers."""
    ends = {}
    for words in connections:
        for half in halves_of(words):
            if half.number in ends:
                raise LookError(f"--connection: two ends have the number {half.number:06x}")
            ends[half.number] = half
    return ends


def receiver_of(ends, source, target, data):
    """The end that a datagram is for, or None where it is of no connection that is given."""
    if len(data) >= 8:
        return None if data[0] & TRANSPORT else ends.get(int.from_bytes(data[5:8], "big"))
    homes = {address for end in ends.values() for address in end.lived.values()}
    if source in homes and target in homes:
        raise Broken("datagram", f"{len(data)} bytes are too short")
    return None


def shown(data):
    """What a datagram is."""
    packet = read_datagram(data)
    if isinstance(packet, Offence):
        return "no datagram"
    return f"{packet.kind}, move count {packet.fields['count']}" if packet.is_moving else f"{packet.kind}, PSN {packet.psn}"


def step(ends, source, target, data, has_choices):
    """Whether the datagram is of a connection. Raises Broken where it breaks a rule."""
    receiver = receiver_of(ends, source, target, data)
    if receiver is None:
        return False
    packet = read_datagram(data)
    if isinstance(packet, Offence):
        raise Broken("datagram", f"it is none: {packet.why} at byte {packet.place}")
    sends(receiver.partner, source, target, packet, has_choices)
    return True


def examine(packets, ends, has_choices):
    """How many datagrams there are of the connections and of others, and the first one that breaks a rule, or None."""
    counts = Counter()
    for frame, source, target, data in packets:
        try:
            counts[step(ends, source, target, data, has_choices)] += 1
        except Broken as fault:
            page, definition = RULES[fault.rule]
            return counts, {
                "frame": frame, "from": shown_address(source, True), "to": shown_address(target, True), "datagram": shown(data),
                "rule": fault.rule, "why": fault.why, "page": page, "definition": definition}
    return counts, None


def check(_, asked):
    """The subcommand, which runs no program."""
    ends = ends_of(asked.connection)
    packets = numbered_packets_of(read_bytes(asked.capture), asked.capture)
    counts, fault = examine(packets, ends, not asked.standard)
    if asked.json:
        print(json.dumps({"datagrams": counts[True], "others": counts[False], "broken": fault}, indent=1))
    elif fault:
        print(f"frame {fault['frame']}: {fault['from']} to {fault['to']}: {fault['datagram']}")
        print(f"  breaks the rule `{fault['rule']}`: {fault['why']}")
        print(f"  {fault['page']}; {fault['definition']}")
    else:
        others = f"; datagrams of others: {counts[False]}" if counts[False] else ""
        print(f"datagrams: {counts[True]}, each as the protocol sends it{others}")
    return BROKEN if fault else 0
