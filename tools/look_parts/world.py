"""What lines and their answers tell of the devices, contexts and things of a script."""
from dataclasses import dataclass, field
from ipaddress import IPv4Address

STANDARD_PORT = 4791
PAGE = 4096


def address_of(word):
    """An address as a script writes it: an IPv4 address as a number, and a port."""
    ip, _, port = word.partition(":")
    return int(IPv4Address(ip)), int(port) if port else STANDARD_PORT


@dataclass
class Device:
    number: int
    address: tuple
    made: int  # the line that made it


@dataclass
class Thing:
    """A domain, a region or a completion queue."""
    name: str
    made: int
    words: list  # the words of the line behind the name
    keys: tuple = ()


@dataclass
class End:
    """A queue pair."""
    name: str
    made: int
    number: int
    domain: str
    queues: tuple
    depths: tuple
    context: "Context"
    partner: "End" = None
    partner_address: tuple = None  # where this end sends to
    connected: int = 0
    terms: dict = field(default_factory=dict)
    psn: int = 0  # its first packet sequence number
    moves: int = 0
    stops: dict = field(default_factory=dict)  # a count of moves -> the device that it then left


@dataclass
class Context:
    name: str
    made: int
    device: int
    stopped: int = 0  # the line that stopped it last
    restored: int = 0
    domains: dict = field(default_factory=dict)
    regions: dict = field(default_factory=dict)
    queues: dict = field(default_factory=dict)
    ends: dict = field(default_factory=dict)

    @property
    def is_carried(self):
        return self.device is None


class World:
    """The world of a script, as far as its answers tell it."""

    def __init__(self):
        self.devices = {}
        self.contexts = {}
        self.ends = {}  # by number
        self.husks = {}  # (context, device) -> the line that stopped the context

    def context(self, name):
        return self.contexts.get(name.partition(".")[0])

    def end(self, name):
        """The queue pair of a name, or None."""
        context = self.context(name)
        return context.ends.get(name) if context else None

    def device_at(self, address):
        return next((d for d in self.devices.values() if d.address == address), None)

    def address_of_device(self, number):
        return self.devices[number].address

    def home(self, end):
        """The address of the device on which an end lives, or None where its context is carried."""
        return None if end.context.is_carried else self.address_of_device(end.context.device)

    def apply(self, answered):
        """The world after a line, by its answer."""
        change = getattr(self, "do_" + answered.line.verb, None)
        if change and not answered.is_refused:
            change(answered.line, answered.line.rest, answered.words)

    # ---- lines that make things

    def do_device(self, line, rest, answer):
        self.devices[int(rest[0])] = Device(int(rest[0]), address_of(rest[1]), line.number)

    def do_context(self, line, rest, answer):
        self.contexts[rest[0]] = Context(rest[0], line.number, int(rest[1]))

    def do_domain(self, line, rest, answer):
        self.context(rest[0]).domains[rest[0]] = Thing(rest[0], line.number, rest[1:])

    def do_region(self, line, rest, answer):
        self.context(rest[0]).regions[rest[0]] = Thing(rest[0], line.number, rest[1:], tuple(answer[1:]))

    def do_cq(self, line, rest, answer):
        self.context(rest[0]).queues[rest[0]] = Thing(rest[0], line.number, rest[1:])

    def do_qp(self, line, rest, answer):
        context = self.context(rest[0])
        end = End(rest[0], line.number, int(answer[1], 16), rest[1], (rest[2], rest[3]), (int(rest[4]), int(rest[5])), context)
        context.ends[rest[0]] = self.ends[end.number] = end

    def do_drop(self, line, rest, answer):
        del self.context(rest[0]).regions[rest[0]]

    def do_connect(self, line, rest, answer):
        one, two = self.end(rest[0]), self.end(rest[1])
        terms = {"mtu": int(rest[3]), "retry": int(rest[8]), "rnr": int(rest[10]), "reads": int(rest[12])}
        for end, other, psn in ((one, two, rest[5]), (two, one, rest[6])):
            end.partner, end.partner_address = other, self.home(other)
            end.connected, end.terms, end.psn = line.number, terms, int(psn)

    # ---- lines of moving

    def do_stop(self, line, rest, answer):
        context = self.contexts[rest[0]]
        self.husks[context.name, context.device] = line.number
        for end in context.ends.values():
            if end.partner:
                end.stops[end.moves] = context.device
        context.device, context.stopped = None, line.number

    def do_restore(self, line, rest, answer):
        context = self.contexts[rest[0]]
        context.device, context.restored = int(rest[1]), line.number
        for end in context.ends.values():
            if end.partner:
                end.moves += 1

    def do_release(self, line, rest, answer):
        self.husks.pop((rest[0], int(rest[1])), None)
