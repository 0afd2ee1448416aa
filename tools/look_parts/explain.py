"""One sentence for a refusal or a bad line, which says what to look at."""
import difflib
import unicodedata

from .answers import LOG_ENDS
from .script import FORMS, MOST_LINE, OPTIONS, REQUESTS, form_of

LIMITS = {
    "device": "16 devices",
    "context": "64 contexts on a device",
    "domain": "64 domains of a context",
    "region": "256 regions of a context, or the keys of a device",
    "cq": "64 completion queues of a context",
    "qp": "64 queue pairs of a context, or the numbers of a device",
    "stop": "256 husks of a device, or 65,535 moves of an end",
    "restore": "64 contexts on a device, or 65,535 moves of an end",
}
MOST_MESSAGE = 1_048_576
KINDS = {"domain": "domains", "region": "regions", "cq": "queues", "qp": "ends"}
WORDS = {"domain": "domain", "region": "region", "cq": "completion queue", "qp": "queue pair"}

# The kind of thing that the n-th word behind the verb names in the line's own context.
NAMED = {
    "region": {1: "domain"},
    "qp": {1: "domain", 2: "cq", 3: "cq"},
    "drop": {0: "region"},
    "store": {0: "region"},
    "load": {0: "region"},
    "poll": {0: "cq"},
    **{verb: {0: "qp"} for verb in (*REQUESTS, "recv", "go", "expire", "rnr")},
    "connect": {0: "qp", 1: "qp"},
}


def listed(names):
    return ", ".join(names) if names else "none"


def number_of(verb, rest, place):
    """The number that stands at a named place of a line."""
    at = [name for name, _ in FORMS[verb]].index(place)
    return int(rest[at])


# ---- refusals

def missing_context(world, name):
    """A sentence where no context has the name of an object or a context, or None."""
    own = name.partition(".")[0]
    if own in world.contexts:
        return None
    return f"There is no context `{own}` yet; there are: {listed(world.contexts)}."


def missing_thing(world, context, kind, name):
    """A sentence where a context has no such thing, or None."""
    things = getattr(context, KINDS[kind])
    if name in things:
        return None
    if name.partition(".")[0] != context.name:
        return f"`{name}` belongs to another context than `{context.name}`, whose line this is."
    return f"Context `{context.name}` has no {WORDS[kind]} `{name}`; it has: {listed(things)}."


def missing_device(world, word):
    if int(word) in world.devices:
        return None
    return f"There is no device {word}; there are: {listed([str(n) for n in world.devices])}."


def no_such(world, verb, rest):
    if verb == "context":
        return missing_device(world, rest[1])
    if verb == "dump":
        return missing_context(world, rest[0]) or not_stopped(world.contexts[rest[0]])
    if verb in ("restore", "release"):
        return missing_device(world, rest[1]) or no_such_move(world, verb, rest)
    count = 2 if verb == "connect" else 1
    for name in rest[:count]:
        sentence = missing_context(world, name)
        if sentence:
            return sentence
    own = world.context(rest[0])
    for place, kind in NAMED.get(verb, {}).items():
        context = world.context(rest[place]) if verb == "connect" else own
        sentence = missing_thing(world, context, kind, rest[place])
        if sentence:
            return sentence
    return None


def not_stopped(context):
    return f"Context `{context.name}` is live on device {context.device}; a dump is shown of a stopped context."


def no_such_move(world, verb, rest):
    if verb == "restore":
        return missing_context(world, rest[0]) or f"Context `{rest[0]}` was never stopped; `stop {rest[0]}` comes first."
    left = [f"{device}" for name, device in world.husks if name == rest[0]]
    return f"Device {rest[1]} has no husk of `{rest[0]}`; devices with one: {listed(left)}."


def number_taken(world, verb, rest):
    if verb == "device":
        device = world.devices.get(int(rest[0]))
        if device:
            return f"Line {device.made} made device {rest[0]} already."
        return f"Another device has the address {rest[1]} already."
    if verb == "context":
        context = world.contexts.get(rest[0])
        return f"Line {context.made} made a context `{rest[0]}`, and a name is never free again." if context else None
    if verb == "restore":
        line = world.husks.get((rest[0], int(rest[1])))
        if line:
            return f"Device {rest[1]} still has the husk that line {line} left; `release {rest[0]} {rest[1]}` comes first."
        return f"A queue pair number or key of `{rest[0]}` lives on device {rest[1]} or stands in a husk there."
    thing = getattr(world.context(rest[0]), KINDS[verb]).get(rest[0])
    return f"Line {thing.made} made a {WORDS[verb]} `{rest[0]}` already." if thing else None


def too_many(world, verb, rest):
    limit = LIMITS.get(verb, "packet numbers below 2^62 for an end")
    return f"The limit is reached: {limit}."


def bad_state(world, verb, rest):
    if verb != "connect":
        return f"`{rest[0]}` is not connected; a `connect` line comes first."
    one, two = world.end(rest[0]), world.end(rest[1])
    for end in (one, two):
        if end and end.partner:
            return f"Line {end.connected} connected `{end.name}` to `{end.partner.name}` already."
    return f"`{rest[0]}` and `{rest[1]}` are of one context; a connection joins two contexts."


def depth_full(world, verb, rest, at, what):
    kind = ("send", "receive")[at]
    return f"The {kind} depth of `{rest[0]}` is {world.end(rest[0]).depths[at]}, and so many {what}: see that one finishes first."


def cq_full(world, verb, rest):
    end = world.end(rest[0])
    name = end.queues[verb == "recv"]
    capacity = end.context.queues[name].words[0]
    return f"Entries and reserved entries fill the capacity of {capacity} of `{name}`: poll it, or let posted work finish."


def bad_key(world, verb, rest):
    if verb in ("store", "load"):
        length = len(rest[2]) // 2 if verb == "store" else int(rest[2])
        return outside(world.context(rest[0]).regions[rest[0]], int(rest[1]), length)
    key, at = rest[2].lower(), int(rest[3])
    length = 8 if verb in ("cas", "add") else number_of(verb, rest, "length")
    context, end = world.context(rest[0]), world.end(rest[0])
    region = next((r for r in context.regions.values() if r.keys[0] == key), None)
    if region is None:
        keys = [f"{r.name} {r.keys[0]}" for r in context.regions.values()]
        return f"No region of context `{context.name}` has the local key {key}; they have: {listed(keys)}."
    if end and region.words[0] != end.domain:
        return f"Region `{region.name}` is of domain `{region.words[0]}`, and `{end.name}` of `{end.domain}`."
    if verb in ("read", "cas", "add", "recv") and "l" not in region.words[3]:
        return f"Region `{region.name}` has the rights `{region.words[3]}`; bytes that land there need `l`."
    return outside(region, at, length)


def outside(region, at, length):
    base, size = int(region.words[1]), int(region.words[2])
    return f"Region `{region.name}` holds {base} to {base + size - 1}, and the line names {at} to {at + length - 1}."


def stopped(world, verb, rest):
    names = rest[:2] if verb == "connect" else rest[:1]
    carried = [c for c in map(world.context, names) if c and c.is_carried]
    if not carried:
        return None
    return f"Line {carried[0].stopped} stopped context `{carried[0].name}`; `restore {carried[0].name} ID` comes first."


def peer_moving(world, verb, rest):
    partners = [e.partner for e in world.contexts[rest[0]].ends.values() if e.partner]
    for partner in partners:
        if partner.context.is_carried:
            return f"The partner `{partner.name}` is carried since line {partner.context.stopped}; restore it and let it run first."
    moved = [f"`{p.name}` (restored in line {p.context.restored})" for p in partners if p.context.restored]
    return f"A partner resumes: {listed(moved)}; deliver its RESUME and the RESUME_ACK first."


def spent(world, verb, rest):
    context = world.contexts[rest[0]]
    return f"Line {context.restored} restored the last image of `{rest[0]}` already; it lives on device {context.device}."


def no_page(world, verb, rest):
    device = rest[1] if verb == "restore" else world.context(rest[0]).device
    return f"Device {device} has 8,192 pages of 4,096 bytes, and too few are free: drop regions, or let posted messages finish."


REFUSALS = {
    "NoSuch": no_such,
    "NumberTaken": number_taken,
    "TooMany": too_many,
    "BadState": bad_state,
    "SqFull": lambda w, v, r: depth_full(w, v, r, 0, "requests are unfinished"),
    "RqFull": lambda w, v, r: depth_full(w, v, r, 1, "receives are unused"),
    "CqFull": cq_full,
    "BadKey": bad_key,
    "TooLong": lambda w, v, r: f"The message has {number_of(v, r, 'length'):,} bytes; the most is {MOST_MESSAGE:,}.",
    "InUse": lambda w, v, r: f"A request, an unused receive or a message in progress still names `{r[0]}`: let it finish first.",
    "Stopped": stopped,
    "PeerMoving": peer_moving,
    "Spent": spent,
    "NoPage": no_page,
}


def refusal(world, answered):
    """What to look at where a line was refused; the world is that before the line."""
    cause = answered.words[1]
    explain = REFUSALS.get(cause)
    sentence = explain and explain(world, answered.line.verb, answered.line.rest)
    return sentence or f"docs/scripts.md says when a line is refused with {cause}."


# ---- bad lines

KIND_WORDS = {
    "name": "a name: a letter `a` to `z`, then up to 15 of `a` to `z`, `0` to `9` and `_`",
    "object": "an object: the name of its context, a dot, and its own name",
    "key": "a key of eight hexadecimal digits",
    "bytes": "2 to 8,192 hexadecimal digits, an even number",
    "rights": "`-`, or some of the letters `l`, `w`, `r`, `a` in this order",
    "address": "an IPv4 address, with or without a colon and a port from 1 to 65535",
    "mtu": "one of 256, 512, 1024, 2048 and 4096",
    "number": "a queue pair number of six hexadecimal digits",
}


def place_words(forms, verb, at):
    """What must stand as the n-th word behind the verb: the place's name and what it takes, or None."""
    form = forms.get(verb, [])
    if at >= len(form):
        return None
    name, kind = form[at]
    if kind == "option":
        return f"the word `{name}`"
    if isinstance(kind, tuple):
        low, high = kind
        most = {2**64 - 1: "below 2^64", 2**32 - 1: "below 2^32", 2**24 - 1: "below 2^24", 2**63: f"{low} to 2^63"}
        return f"`{name}`, a decimal number without leading zero, {most.get(high, f'{low:,} to {high:,}')}"
    return f"`{name}`, {KIND_WORDS[kind]}"


def bad_line(ending, forms):
    """What to look at in a bad line."""
    line, why, column = ending.line, ending.why, ending.column
    if why == "long":
        return f"The line has {len(line.raw):,} bytes, and the most is {MOST_LINE:,}."
    if why == "ascii":
        return ascii_sentence(line, column)
    at = next((i for i, word in enumerate(line.words) if word.column == column), len(line.words))
    word = line.words[at].text if at < len(line.words) else ""
    if why == "word":
        return word_sentence(word, forms)
    form = form_of(line.verb, forms)
    if why == "extra":
        options = OPTIONS.get(line.verb)
        return f"`{word}` is one word too many: the form is `{form}`" + (", its options once each in this order." if options else ".") + small(word)
    wanted = place_words(forms, line.verb, at - 1) or "an immediate of eight hexadecimal digits behind `imm`"
    if why == "missing":
        return f"Here must stand {wanted}; the form is `{form}`."
    return f"In the place of `{word}` must stand {wanted}; the form is `{form}`." + (small(word) if why in IN_SMALL_LETTERS else "")


# The reasons under which capitals may be what is wrong: digits of numbers and keys may have either case.
IN_SMALL_LETTERS = ("name", "rights", "option")


def small(word):
    """What to do with capitals."""
    return "" if word == word.lower() else f" Write it in small letters: `{word.lower()}`."


def word_sentence(word, forms):
    """What to look at where no line begins with a word."""
    if word.lower() in forms:
        return f"No line begins with `{word}`." + small(word)
    near = difflib.get_close_matches(word.lower(), forms, 1)
    return f"No line begins with `{word}`" + (f"; did you mean `{near[0]}`?" if near else "; docs/scripts.md has all lines.")


# What stands at the head of a file that an editor saved in another way than as ASCII: the bytes, and how to take them away.
HEADS = {
    b"\xef\xbb\xbf": "a byte order mark; save the file without it (UTF-8 without BOM), or take it away: sed -i '1s/^\\xEF\\xBB\\xBF//' FILE",
    b"\xff\xfe": "the mark of UTF-16; save the file as ASCII or UTF-8, or convert it: iconv -f UTF-16 -t ASCII FILE",
    b"\xfe\xff": "the mark of UTF-16; save the file as ASCII or UTF-8, or convert it: iconv -f UTF-16 -t ASCII FILE",
}


def ascii_sentence(line, column):
    """What to do with a byte that no line may have."""
    head = next((told for begin, told in HEADS.items() if line.number == 1 and column == 1 and line.raw.startswith(begin)), None)
    if head:
        return f"The file begins with {head}."
    byte = line.raw[column - 1]
    told = f"The byte {byte:02x}{byte_name(line.raw, column)} in column {column} is none that a line may have; those are 32 to 126."
    if byte == 9:
        return f"{told} Put spaces in its place; `expand FILE` does so for all tabs."
    return told


def byte_name(raw, column):
    """What a byte is, or the character that it begins, in brackets."""
    byte = raw[column - 1]
    if byte == 9:
        return " (a tab)"
    if byte == 13:
        return " (a carriage return without a newline behind it)" if column == len(raw) else " (a carriage return)"
    for size in (2, 3, 4) if byte >= 128 else ():
        try:
            character = raw[column - 1:column - 1 + size].decode("utf-8")
        except UnicodeDecodeError:
            continue
        return f" (of the character U+{ord(character):04X}, {unicodedata.name(character, 'without a name').lower()})" if len(character) == 1 else ""
    return ""


ENDINGS = {
    "out of memory": "The program's memory ran out here; nothing after this line was played.",
    "link fault": "The node's link failed: look at its address and port, and whether another process has them.",
    "depot fault": "A file of the node's depot could not be read or written: look at the folder `depot` where the node runs.",
    "missing": "The node's depot holds nothing under this name: no context was stopped into it, or its dump was restored already.",
    "bad dump": "The file of the node's depot is no dump; `look dump` on it shows its first fault.",
    LOG_ENDS: "The node still ran when this log was taken, or its output could not be written.",
}


def ending_sentence(ending, forms=FORMS):
    """What to look at where a run was not played to its end."""
    if ending.why:
        return bad_line(ending, forms)
    return next(sentence for begin, sentence in ENDINGS.items() if ending.text.startswith(begin))


# ---- answers that are no refusal and still want a word

HINTS = {
    "sent": None,
    "waiting": "The end is paused, has failed, or waits for its RNR timer.",
    "window": "64 request packets are unacknowledged: deliver answers first.",
    "reads": "As many Reads and atomics as the connection allows are in flight: deliver their answers first.",
    "fenced": "The next request has a fence and waits for earlier Reads and atomics.",
    "gone": "No datagram has this number yet, or it is older than the last 16,384.",
    "lost": "An earlier `lose` line lost this datagram.",
    "aged": "The datagram is too old to be told apart from a newer one, and nothing took it.",
    "spent": "The retries are spent: the end has failed, and its work completes with an error.",
}


def hint(answered):
    """A sentence on an answer that says that nothing was done, or None."""
    return HINTS.get(answered.first)
