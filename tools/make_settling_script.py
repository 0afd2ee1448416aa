#!/usr/bin/env python3
"""Writes the large script of settling: tools/make_settling_script.py > examples/large/settling.script.

It has 16 devices, 64 contexts and 512 connections of all kinds of terms, requests of all kinds, some of which find no
receive, and a network that delivers some datagrams, loses some and forgets about the rest. Two contexts move in the middle,
and one is carried when the last line settles all that is left. The same script is written each time.
"""
import random

DEVICES, CONTEXTS, CONNECTIONS = 16, 64, 512
BASE, SIZE = 65536, 65536
MTUS = (256, 512, 1024, 2048, 4096)


class Writer:
    """The lines so far, and what later ones have to know of them."""

    def __init__(self):
        self.random = random.Random(1913)
        self.ends = []  # each connection: its MTU, its two ends and the contexts of these
        self.requests = 0
        self.unsent = []  # an end for each packet that it has to send
        self.sent = 0  # about how many datagrams were sent

    def say(self, *words):
        print(*words)

    def make(self):
        for device in range(1, DEVICES + 1):
            self.say('device', device, f'10.0.0.{device}')
        for context in range(CONTEXTS):
            name, device = f'c{context}', context % DEVICES + 1
            self.say('context', name, device)
            self.say(f'domain {name}.p')
            self.say(f'region {name}.m {name}.p {BASE} {SIZE} lwra')
            self.say(f'cq {name}.c 512')

    def keys(self, context):
        """The local and the remote key of a context's region."""
        local = (context % DEVICES + 1 << 24) + 2 * (context // DEVICES + 1)
        return f'{local:08x}', f'{local + 1:08x}'

    def connect(self):
        for number in range(CONNECTIONS):
            one, two = self.random.sample(range(CONTEXTS), 2)
            for context in (one, two):
                self.say(f'qp c{context}.q{number} c{context}.p c{context}.c c{context}.c 8 8')
            mtu = self.random.choice(MTUS)
            own, other = self.random.choice((0, 16777210, 100 * number)), self.random.randrange(1 << 24)
            retry, rnr = self.random.randrange(8), self.random.choice((0, 1, 3, 7, 7))
            reads = self.random.choice((1, 1, 2, 16))
            self.say(f'connect c{one}.q{number} c{two}.q{number} mtu {mtu} psn {own} {other} retry {retry} rnr {rnr} reads {reads}')
            self.ends.append((mtu, (f'c{one}.q{number}', one), (f'c{two}.q{number}', two)))

    def place(self, length):
        return BASE + 8 * self.random.randrange((SIZE - length) // 8 + 1)

    def post(self, connection):
        """A request of either end of a connection; a SEND mostly has its receive."""
        mtu, here, there = connection
        if self.random.random() < 0.3:
            here, there = there, here
        self.requests += 1
        length = self.random.randrange(4 * mtu) if self.random.random() < 0.6 else self.random.randrange(64)
        local, remote = self.keys(here[1])[0], self.keys(there[1])[1]
        kind = self.random.choice(('write', 'write', 'send', 'send', 'read', 'read', 'cas', 'add'))
        packets = 1 + max(0, length - 1) // mtu if kind in ('write', 'send') else 1
        self.unsent += packets * [here[0]]
        head = f'{kind} {here[0]} {self.requests} {local}'
        tail = self.random.choice(('', '', '', ' fence', ' quiet'))
        if kind in ('cas', 'add'):
            value = '0 1' if kind == 'cas' else '5'
            self.say(f'{head} {self.place(8)} {self.place(8)} {remote} {value}{tail}')
        elif kind == 'send':
            if self.random.random() < 0.7:
                self.say(f'recv {there[0]} {self.requests} {self.keys(there[1])[0]} {BASE} {length}')
            self.say(f'{head} {self.place(length)} {length}{tail}')
        else:
            self.say(f'{head} {self.place(length)} {length} {self.place(length)} {remote}{tail}')

    def carry(self, steps):
        """Ends send, and the network delivers, loses and repeats what it likes."""
        for _ in range(steps):
            dice = self.random.random()
            if dice < 0.5 or self.sent < 2:
                self.say('go', self.unsent.pop(self.random.randrange(len(self.unsent))))
                self.sent += 1
            elif dice < 0.9:
                self.say('deliver', self.random.randint(max(1, int(self.sent) - 100), int(self.sent)))
                self.sent += 0.4
            elif dice < 0.97:
                self.say('lose', self.random.randint(max(1, int(self.sent) - 100), int(self.sent)))
            else:
                self.say('expire', self.random.choice(self.unsent))

    def partners(self, context):
        return {two[1] if one[1] == context else one[1] for _, one, two in self.ends if context in (one[1], two[1])}

    def write(self):
        self.make()
        self.connect()
        for connection in self.ends + self.random.sample(self.ends, 400):
            self.post(connection)
        self.carry(1200)
        first, second, third = self.apart()
        self.say(f'stop c{first}')
        self.carry(60)
        self.say(f'restore c{first} {(first + 5) % DEVICES + 1}')
        for connection in self.random.sample(self.ends, 300):
            self.post(connection)
        self.carry(600)
        self.say(f'stop c{second}')
        self.say(f'restore c{second} {(second + 9) % DEVICES + 1}')
        self.carry(400)
        self.say(f'stop c{third}')
        self.say('settle')

    def apart(self):
        """Three contexts of which no two are partners."""
        while True:
            three = self.random.sample(range(CONTEXTS), 3)
            if not any(one in self.partners(two) for one in three for two in three):
                return three


Writer().write()
