"""Scripts without a line that settles: those of examples, and made ones."""
import random
from pathlib import Path

TOP = Path(__file__).resolve().parents[2]
DEVICES, BASE, SIZE = 3, 65536, 8192
UNKNOWN = ("refused Stopped", "refused TooMany", "refused NoPage")
VERBS = "context domain region cq qp connect drop store load write send read cas add recv poll".split()


def words_of(line):
    """The words of a line; none of a blank one."""
    return [] if line.lstrip(" ").startswith("#") else line.split()


def settles(script):
    return any(words_of(line)[:1] == ["settle"] for line in script.splitlines())


def examples():
    """The scripts of examples that a world of devices plays."""
    return [path for path in sorted((TOP / "examples").rglob("*.script")) if path.parent.name != "live_move"]


def marked(script):
    """The script with a line behind each line that is answered by `gone`, so that the answers of a line end there."""
    return "".join(f"{line}\nwire 0\n" for line in script.splitlines())


def kept(script, answers):
    """The `v` and `=` lines that are recorded of a script, by the answers to its marked lines."""
    answers, devices, trace = iter(answers.splitlines()), set(), []
    for words in map(words_of, script.splitlines()):
        mine = [next(answers)] if words else []
        while (more := next(answers)) != "gone":
            mine.append(more)
        if words[:1] == ["device"] and mine == ["ok"]:
            devices.add(words[1])
        if not words or words[0] not in VERBS or mine[0] in UNKNOWN:
            continue
        if words[0] == "context":
            words = words[:2] + ["made" if words[2] in devices else "none"]
        trace += ["v " + " ".join(words).lower(), *("= " + line for line in mine)]
    return trace


class Maker:
    """Makes a script in rounds. Between them it learns from the program how many datagrams were sent."""

    def __init__(self, seed):
        self.random = random.Random(seed)
        self.lines, self.ends, self.ids, self.seen = [], [], 0, 0
        self.at = {"a": 1, "b": 2}
        self.open(self.random.randint(1, 3))

    def say(self, *words):
        self.lines.append(" ".join(map(str, words)))

    def open(self, connections):
        for device in range(1, DEVICES + 1):
            self.say("device", device, f"10.0.0.{device}")
        for context, device in self.at.items():
            self.say("context", context, device)
            self.say(f"domain {context}.p")
            self.say(f"region {context}.m {context}.p {BASE} {SIZE} lwra")
            self.say(f"region {context}.r {context}.p {2 * BASE} {SIZE} lr")
            self.say(f"cq {context}.c", self.random.choice((8, 64)))
        choose = self.random.choice
        for place in range(1, connections + 1):
            for context in self.at:
                self.say(f"qp {context}.q{place} {context}.p {context}.c {context}.c", choose((2, 8)), choose((2, 8)))
            self.say(
                f"connect a.q{place} b.q{place} mtu", choose((256, 512, 1024)), "psn", choose((0, 16777214, 100)), 200 * place,
                "retry", choose((0, 2, 7)), "rnr", choose((0, 2, 7)), "reads", choose((1, 4)))
            self.ends += [f"a.q{place}", f"b.q{place}"]

    def place(self, context):
        """An address and the keys of a region of that context; now and then they do not fit."""
        odd = self.random.random() < 0.05
        number, base = (4, 2 * BASE) if odd else (2, BASE)
        key = ("a", "b").index(context) + 1 << 24 | number
        address = base + self.random.randrange(SIZE // 16) * 8 + (self.random.random() < 0.02)
        return address, f"{key:08x}", f"{key + 1:08x}"

    def post(self):
        end, self.ids = self.random.choice(self.ends), self.ids + 1
        here, there = (end[0], "b" if end[0] == "a" else "a")
        address, lkey, _ = self.place(here)
        raddress, _, rkey = self.place(there)
        length = self.random.choice((0, 4, 200, 256, 700, 1500))
        kind = self.random.choice(("write", "write", "send", "read", "cas", "add"))
        words = {
            "write": (length, raddress, rkey), "send": (length,), "read": (length, raddress, rkey), "cas": (raddress, rkey, 0, 7),
            "add": (raddress, rkey, self.ids)}[kind]
        more = [word for word, often in (("imm 0000002A", 0.3 if kind in ("write", "send") else 0), ("fence", 0.1), ("quiet", 0.2))
                if self.random.random() < often]
        if self.random.random() < 0.7 and (kind == "send" or "imm 0000002A" in more):
            self.receive(there + end[1:])
        self.say(kind, end, self.ids, lkey, address, *words, *more)

    def receive(self, end):
        address, lkey, _ = self.place(end[0])
        self.say("recv", end, 1000 + self.ids, lkey, address, self.random.choice((2000, 2000, 2000, 300)))

    def move(self):
        context = self.random.choice("ab")
        old = self.at[context]
        new = self.at[context] = old % DEVICES + 1
        self.say("stop", context)
        self.say("restore", context, new)
        for end in self.ends:
            if end[0] == context:
                self.say("go", end)
        if self.random.random() < 0.5:
            self.say("release", context, old)

    def other(self):
        end, any_ = self.random.choice(self.ends), self.random.choice
        context = end[0]
        any_((
            lambda: self.say("expire", end),
            lambda: self.say("rnr", end),
            lambda: self.say("poll", f"{context}.c", any_((1, 4, 256))),
            lambda: self.say("store", f"{context}.m", BASE + 8 * any_(range(SIZE // 8)), "%016X" % self.ids),
            lambda: self.say("load", f"{context}.m", BASE + any_(range(SIZE // 2)), any_((1, 64, 1024))),
            lambda: self.say("lose", self.random.randint(1, self.seen + 3)),
            self.move,
        ))()

    def round(self, sent):
        """More lines, where so many datagrams were sent; those that were not delivered come in some order, or not at all."""
        come = [number for number in range(self.seen + 1, sent + 1) if self.random.random() < 0.9]
        if self.random.random() < 0.2:
            self.random.shuffle(come)
        for number in come:
            self.say("deliver", number)
        self.seen = sent
        for _ in range(self.random.randint(2, 5)):
            self.random.choice((self.post, self.post, self.other))()
        for end in self.ends:
            for _ in range(self.random.randint(0, 6)):
                self.say("go", end)

    def text(self):
        return "".join(line + "\n" for line in self.lines)


def sent_in(answers):
    """The number of the last datagram that these answers tell of."""
    words = answers.split()
    return max((int(number) for word, number in zip(words, words[1:]) if word in ("sent", "to")), default=0)


def made(seed, play, rounds=8):
    """The script of a seed; `play` gives the answers to a script."""
    maker = Maker(seed)
    sent = 0
    for _ in range(rounds):
        maker.round(sent)
        sent = sent_in(play(maker.text()))
    return maker.text()
