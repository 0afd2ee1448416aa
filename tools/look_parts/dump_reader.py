"""Reads a dump field by field, and names the first fault of bytes that are none."""
import re
from dataclasses import dataclass

from .dump_format import (
    CONNECTION, ENTRY, FENCE, IMMEDIATE, MAGIC, MOST, PROGRESS, PROGRESSES, QUEUE, QUEUE_PAIR, REGION, REPLY, REQUEST, RECEIVE, SEND,
    STATUSES, VERSIONS, WRITE, NO_MESSAGE, takes_bytes)

NAME = re.compile(rb"[a-z][a-z0-9_]{0,15}")
NUMBER_LIMIT = 2**62
MOST_MESSAGE = 1_048_576
MOST_REGION = 16_777_216
MTUS = (256, 512, 1024, 2048, 4096)
LOCAL_WRITE, REMOTE_WRITE = 1, 2


class Fault(Exception):
    """The first fault of bytes that are no dump: its place, and the word of docs/dumps.md."""

    def __init__(self, place, why, field=""):
        super().__init__(f"bad dump {place} {why}")
        self.place, self.why, self.field = place, why, field


@dataclass
class Field:
    """A field as it stands in the dump."""
    place: int
    size: int
    name: str
    shown: object


class Fields:
    """Reads fields one after the other, and keeps what it read."""

    def __init__(self, data):
        self.data, self.at, self.read, self.path = data, 0, [], []

    def named(self, name):
        return ".".join([*self.path, name])

    def raw(self, size, name):
        if self.at + size > len(self.data):
            raise Fault(len(self.data), "short", self.named(name))
        self.at += size
        return self.data[self.at - size:self.at]

    def keep(self, start, name, shown):
        self.read.append(Field(start, self.at - start, self.named(name), shown))

    def number(self, name, size, form, test, why="field"):
        start = self.at
        n = int.from_bytes(self.raw(size, name), "big")
        if not test(n):
            raise Fault(start, why, self.named(name))
        self.keep(start, name, form.show(n) if form else n)
        return n

    def record(self, table, **tests):
        """The fields of a table. A test is given the number and the fields before it."""
        told = {}
        for name, size, form in table:
            test = tests.get(name)
            told[name] = self.number(name, size, form, lambda n, test=test: test is None or test(n, told))
        return told

    def name(self, seen, name="name"):
        start = self.at
        text = self.raw(self.raw(1, name)[0], name)
        if not NAME.fullmatch(text) or text.decode() in seen:
            raise Fault(start, "name", self.named(name))
        self.keep(start, name, text.decode())
        return text.decode()

    def count(self, name, size, most, test=None):
        start = self.at
        n = self.number(name, size, None, lambda n: n <= most, "count")
        if test and not test(n):
            raise Fault(start, "field", self.named(name))
        return n

    def items(self, name, count, read):
        """So many items, each read with those before it at hand."""
        found = []
        for place in range(count):
            self.path.append(f"{name}[{place}]")
            found.append(read(found))
            self.path.pop()
        return found

    def listed(self, name, size, read, most=None):
        return self.items(name, self.count(f"count of {name}", size, MOST[name] if most is None else most), read)

    def hidden(self, name, size):
        """Bytes of memory or of a message."""
        start = self.at
        data = self.raw(size, name)
        self.keep(start, name, data.hex())
        return data


def is_number(n, _=None):
    """A queue pair's number: a device's id and a count, neither of them 0."""
    return n < 2**24 and n >> 16 and n & 0xFFFF


def is_local_key(n):
    return n >> 24 and n & 0xFFFFFF >= 2 and n % 2 == 0


def is_whole(mtu, n):
    """A positive multiple of the MTU."""
    return n != 0 and n % mtu == 0


def span(request, mtu):
    """How many packet numbers a request takes."""
    return 1 if request["kind"] > 2 else max(1, -(-request["length"] // mtu))


class DumpReader:
    """Reads the image of a context."""

    def __init__(self, data):
        self.fields = Fields(data)
        self.capacities = []  # the places of the capacities of the completion queues

    def image(self):
        fields = self.fields
        if fields.raw(8, "magic") != MAGIC:
            raise Fault(0, "magic", "magic")
        fields.keep(0, "magic", "MIGDUMP and 00")
        self.version = fields.number("version", 2, None, lambda n: n in VERSIONS, "version")
        image = {"version": self.version, "name": fields.name(())}
        image["domains"] = self.domains = fields.listed("domains", 2, lambda seen: fields.name(seen))
        image["regions"] = self.regions = fields.listed("regions", 2, self.region)
        image["completion_queues"] = self.queues = fields.listed("completion_queues", 2, self.queue)
        image["queue_pairs"] = fields.listed("queue_pairs", 2, self.queue_pair)
        self.check_capacities(image["queue_pairs"])
        if fields.at < len(fields.data):
            raise Fault(fields.at, "trailing", "the end")
        return image

    # ---- regions and completion queues

    def region(self, seen):
        told = {"name": self.fields.name([r["name"] for r in seen])}
        told |= self.fields.record(
            REGION,
            domain=lambda n, _: n < len(self.domains), base=lambda n, _: n <= 2**63, length=lambda n, _: 1 <= n <= MOST_REGION,
            rights=lambda n, _: n <= 15, local_key=lambda n, _: is_local_key(n) and n not in [r["local_key"] for r in seen],
            remote_key=lambda n, t: n == t["local_key"] + 1)
        told["bytes"] = self.fields.hidden("bytes", told["length"])
        return told

    def queue(self, seen):
        told = {"name": self.fields.name([q["name"] for q in seen])}
        self.capacities.append(self.fields.at)
        told |= self.fields.record(QUEUE, capacity=lambda n, _: 1 <= n <= 16_384)
        told["entries"] = self.fields.listed("entries", 4, self.entry, told["capacity"])
        return told

    def entry(self, _):
        return self.fields.record(
            ENTRY,
            queue_pair=is_number, kind=lambda n, _: n <= 6, status=lambda n, _: n in STATUSES,
            length=lambda n, _: n <= MOST_MESSAGE, has_immediate=lambda n, _: n <= 1,
            immediate=lambda n, t: t["has_immediate"] or n == 0)

    def check_capacities(self, ends):
        """Entries and reserved entries do not pass a capacity."""
        for place, (queue, start) in enumerate(zip(self.queues, self.capacities)):
            used = len(queue["entries"])
            for end in ends:
                sending = end["connection"] and end["connection"]["in_progress"]
                used += len(end["requests"]) * (end["send_queue"] == place)
                used += (len(end["receives"]) + bool(sending and "receive" in sending)) * (end["receive_queue"] == place)
            if used > queue["capacity"]:
                raise Fault(start, "field", f"completion_queues[{place}].capacity")

    # ---- queue pairs

    def queue_pair(self, seen):
        fields = self.fields
        told = {"name": fields.name([e["name"] for e in seen])}
        depth = lambda n, _: 1 <= n <= 256  # noqa: E731
        queue = lambda n, _: n < len(self.queues)  # noqa: E731
        told |= fields.record(
            QUEUE_PAIR,
            number=lambda n, _: is_number(n) and n not in [e["number"] for e in seen],
            domain=lambda n, _: n < len(self.domains), send_queue=queue, receive_queue=queue, send_depth=depth,
            receive_depth=depth, state=lambda n, _: n <= 2)
        link = told["connection"] = self.connection(told) if told["state"] else None
        count = fields.count("count of requests", 2, told["send_depth"], lambda n: self.is_untold_count(told, n))
        told["requests"] = fields.items("requests", count, lambda before: self.request(told["domain"], link, count, before))
        unused = fields.count("count of receives", 2, told["receive_depth"], lambda n: n == 0 or told["state"] != 2)
        told["receives"] = fields.items("receives", unused, lambda _: self.receive(told["domain"], 0))
        return told

    @staticmethod
    def is_untold_count(end, n):
        """None in Init and Error; without any, all numbers are the first."""
        if n:
            return end["state"] == 1
        return end["state"] == 0 or end["connection"]["top"] == end["connection"]["first"]

    def connection(self, end):
        ended = end["state"] == 2

        def follows(low):
            return lambda n, t: n < NUMBER_LIMIT and (n == t[low] if ended else n >= t[low])

        below = lambda n, _: n < NUMBER_LIMIT  # noqa: E731
        bit = lambda n, _: n <= 1  # noqa: E731
        short = lambda n, _: n < 2**24  # noqa: E731
        seven = lambda n, _: n <= 7  # noqa: E731
        told = self.fields.record(
            CONNECTION,
            partner=short, resuming=lambda n, _: n <= (0 if ended else 1), mtu=lambda n, _: n in MTUS, own_start=short,
            partner_start=short, retry=seven, rnr=seven, reads=lambda n, _: 1 <= n <= 16, first=below,
            oldest=lambda n, t: t["first"] <= n < NUMBER_LIMIT, next=follows("oldest"), top=follows("next"),
            expiries=lambda n, t: n <= t["retry"], waits=lambda n, t: t["rnr"] == 7 or n <= t["rnr"], rnr_wait=bit,
            expected=below, nak_sent=bit, messages=short)
        code = self.fields.number("in_progress", 1, PROGRESSES, lambda n: n <= (0 if ended else 2))
        told["in_progress"] = None if code == NO_MESSAGE else self.progress(end["domain"], told["mtu"], code)
        told["replies"] = self.fields.listed("replies", 1, lambda before: self.reply(told["expected"], before))
        return told

    def reply(self, expected, before):
        low = before[-1]["number"] if before else -1
        return self.fields.record(REPLY, number=lambda n, _: low < n < expected)

    def progress(self, domain, mtu, code):
        self.fields.path.append("in_progress")
        if code == SEND:
            told = self.fields.record(PROGRESS[SEND], done=lambda n, _: is_whole(mtu, n))
            self.fields.path.append("receive")
            told["receive"] = self.receive(domain, told["done"])
            self.fields.path.pop()
        else:
            told = self.fields.record(
                PROGRESS[WRITE],
                region=lambda n, _: n < len(self.regions) and self.regions[n]["domain"] == domain and self.regions[n]["rights"] & REMOTE_WRITE,
                length=lambda n, t: n <= MOST_MESSAGE and (n == 0 or t["offset"] + n <= self.regions[t["region"]]["length"]),
                done=lambda n, t: is_whole(mtu, n) and n < t["length"])
        self.fields.path.pop()
        return told

    # ---- work

    def is_granted(self, domain, key, address, count, right):
        """A region of the domain with this local key holds the place, and gives the right."""
        return count == 0 or any(
            r["domain"] == domain and r["local_key"] == key and r["rights"] & right == right
            and r["base"] <= address and address + count <= r["base"] + r["length"] for r in self.regions)

    def receive(self, domain, done):
        return self.fields.record(
            RECEIVE,
            length=lambda n, t: done <= n <= MOST_MESSAGE and self.is_granted(domain, t["local_key"], t["local_address"], n, LOCAL_WRITE))

    def request(self, domain, link, count, before):
        low = link["first"] + sum(span(r, link["mtu"]) for r in before)
        right = lambda t: LOCAL_WRITE if t["kind"] >= 2 else 0  # noqa: E731
        remote = lambda n, t: t["kind"] != 1 or n == 0  # noqa: E731
        told = self.fields.record(
            REQUEST,
            kind=lambda n, _: n <= 4, flags=lambda n, t: self.are_flags(link, before, low, t["kind"], n),
            immediate=lambda n, t: t["flags"] & IMMEDIATE or n == 0,
            length=lambda n, t: self.is_length(link, count, before, low, {**t, "length": n}),
            local_address=lambda n, t: self.is_granted(domain, t["local_key"], n, t["length"], right(t)),
            remote_address=remote, remote_key=remote, swap_or_add=lambda n, t: t["kind"] >= 3 or n == 0,
            compare=lambda n, t: t["kind"] == 3 or n == 0)
        told["bytes"] = self.fields.hidden("bytes", told["length"]) if takes_bytes(told["kind"]) else None
        return told

    def are_flags(self, link, before, low, kind, n):
        """An immediate of a WRITE or SEND alone; a fence of version 2 alone, and nothing sent past one that holds."""
        if n > 7 or n & IMMEDIATE and not takes_bytes(kind):
            return False
        if not n & FENCE:
            return True
        return self.version == 2 and not (any(r["kind"] >= 2 for r in before) and low < link["top"])

    @staticmethod
    def is_length(link, count, before, low, request):
        """The length, and the rules on packet numbers that it decides."""
        length, high = request["length"], low + span(request, link["mtu"])
        if (length != 8) if request["kind"] > 2 else (length > MOST_MESSAGE):
            return False
        inside_read = request["kind"] == 2 and low < link["next"] < high and link["next"] != link["oldest"]
        is_last = len(before) + 1 >= count
        return high < NUMBER_LIMIT and not inside_read and (bool(before) or link["oldest"] < high) and (not is_last or link["top"] <= high)


def read_dump(data):
    """The image that bytes are a dump of, and its fields as they stand there; or a Fault is raised."""
    reader = DumpReader(data)
    return reader.image(), reader.fields.read
