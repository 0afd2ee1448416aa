"""Reads a trace as docs/traces.md and docs/scripts.md say, without any code of the program."""
import re

U32, U64 = 2**32 - 1, 2**64 - 1


class Bad(Exception):
    """A line that is in no form: its column, counted from 1, and the reason."""

    def __init__(self, column, why):
        self.column, self.why = column, why


class Words:
    """The words of a line, of which the next one is read; columns count from 1."""

    def __init__(self, line):
        self.words = [(found.start() + 1, found.group()) for found in re.finditer("[^ ]+", line)]
        self.end = len(line) + 1

    def word(self):
        if not self.words:
            raise Bad(self.end, "missing")
        return self.words.pop(0)

    def takes(self, word):
        """Whether this optional word is next; it is read then."""
        if self.words and self.words[0][1] == word:
            return self.words.pop(0)

    def ends(self):
        if self.words:
            raise Bad(self.words[0][0], "extra")


def field(test, why, value=lambda word: word):
    """Reads a word for which the test holds, as this value."""

    def read(words):
        column, word = words.word()
        if not test(word):
            raise Bad(column, why)
        return value(word)

    return read


def matching(pattern, why, value=lambda word: word):
    return field(re.compile(pattern).fullmatch, why, value)


def number(low, high):
    return field(lambda word: re.fullmatch("0|[1-9][0-9]*", word) and low <= int(word) <= high, "number", int)


def choice(*words, why="option"):
    return field(lambda word: word in words, why)


NAME = "[a-z][a-z0-9_]{0,15}"
a_name = matching(NAME, "name")
an_object = matching(rf"{NAME}\.{NAME}", "name", lambda word: tuple(word.split(".")))
a_key = matching("[0-9a-fA-F]{8}", "hex", lambda word: int(word, 16))
some_bytes = matching("([0-9a-fA-F]{2}){1,4096}", "hex", bytes.fromhex)
rights = matching("-|(?=.)l?w?r?a?", "rights", set)
short, long = number(0, U32), number(0, U64)

VERBS = {
    "context": (a_name, choice("made", "none")),
    "domain": (an_object,),
    "region": (an_object, an_object, number(0, 2**63), number(1, 2**24), rights),
    "cq": (an_object, number(1, 16384)),
    "qp": (an_object, an_object, an_object, an_object, number(1, 256), number(1, 256)),
    "connect": (
        an_object, an_object, choice("mtu"), field(lambda word: word in ("256", "512", "1024", "2048", "4096"), "number", int),
        choice("psn"), number(0, 2**24 - 1), number(0, 2**24 - 1), choice("retry"), number(0, 7), choice("rnr"), number(0, 7),
        choice("reads"), number(1, 16)),
    "drop": (an_object,),
    "store": (an_object, long, some_bytes),
    "load": (an_object, long, number(1, 4096)),
    "write": (an_object, long, a_key, long, short, long, a_key),
    "send": (an_object, long, a_key, long, short),
    "read": (an_object, long, a_key, long, short, long, a_key),
    "cas": (an_object, long, a_key, long, long, a_key, long, long),
    "add": (an_object, long, a_key, long, long, a_key, long),
    "recv": (an_object, long, a_key, long, short),
    "poll": (an_object, number(1, 256)),
}
POSTED = ("write", "send", "read", "cas", "add")

STEPS = {
    "run": (an_object, short),
    "atom": (an_object,),
    "turn": (an_object,),
    "refuse": (an_object, choice("invalid", "access", "length")),
    "dry": (an_object,),
    "offer": (an_object, short, short, short),
    "land": (an_object, short),
    "known": (an_object, short),
    "tell": (an_object,),
    "expire": (an_object,),
    "wait": (an_object,),
    "bounce": (an_object,),
}

KINDS = "write|send|read|cas|add|recv|recvimm"
REFUSALS = "NoSuch|NumberTaken|TooMany|BadState|SqFull|RqFull|CqFull|BadKey|TooLong|InUse|Stopped|NoPage"
ANSWER = re.compile(
    "ok|none|region [0-9a-f]{8} [0-9a-f]{8}|qp [0-9a-f]{6}|bytes ([0-9a-f]{2}){1,4096}"
    rf"|refused ({REFUSALS})"
    rf"|wc [0-9a-f]{{6}} (?P<id>0|[1-9][0-9]*) ({KINDS}) (0|1|5|9|10|12|13) (?P<length>0|[1-9][0-9]*)( imm [0-9a-f]{{8}})?")


def is_answer(line):
    found = line.startswith("= ") and ANSWER.fullmatch(line[2:])
    return bool(found) and int(found["id"] or 0) <= U64 and int(found["length"] or 0) <= U32


def options(words, verb):
    """The words that may follow a posted request: its immediate, whether it is fenced, and whether it is signaled."""
    immediate = None
    if verb in ("write", "send") and words.takes("imm"):
        immediate = a_key(words)
    fenced = bool(words.takes("fence"))
    return immediate, fenced, not words.takes("quiet")


def said(words):
    """What a line says that is no line of an answer: (`v`, verb, fields), (`i`, step, fields) or (`end`,)."""
    leader = choice("v", "i", "end", why="word")(words)
    if leader == "end":
        words.ends()
        return ("end",)
    forms = VERBS if leader == "v" else STEPS
    word = choice(*forms, why="word")(words)
    fields = [read(words) for read in forms[word]]
    if word in POSTED and leader == "v":
        fields.append(options(words, word))
    words.ends()
    return leader, word, fields


def offence(line):
    """What is wrong with the bytes of a line."""
    if len(line) > 8400:
        raise Bad(8401, "long")
    for place, letter in enumerate(line):
        if not 32 <= ord(letter) <= 126:
            raise Bad(place + 1, "ascii")


class BadLine(Exception):
    """The first bad line of a trace."""

    def __init__(self, line, bad):
        self.line, self.column, self.why = line, bad.column, bad.why


def read(text):
    """The steps of a trace, each with the number of its line; a verb also has the lines of its answer."""
    steps, answers, ended = [], None, False
    *lines, cut = text.split("\n")
    for at, line in enumerate(lines + [cut] * bool(cut), 1):
        try:
            if ended:
                raise Bad(1, "extra")
            offence(line)
            if answers is not None and is_answer(line) and at <= len(lines):
                answers.append(line[2:])
                continue
            if answers == []:
                raise Bad(1, "word")
            what, *rest = said(Words(line))
            if at > len(lines):
                raise Bad(len(line) + 1, "missing")
        except Bad as bad:
            raise BadLine(at, bad) from None
        ended = what == "end"
        answers = [] if what == "v" else None
        if not ended:
            steps.append((at, *rest, answers))
    if not ended:
        raise BadLine(len(lines) + 1, Bad(1, "word" if answers == [] else "missing"))
    return steps
