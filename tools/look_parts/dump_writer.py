"""The bytes of an image, and the image as JSON: both ways."""
from .dump_format import (
    CONNECTION, ENTRY, MAGIC, NO_MESSAGE, PROGRESS, PROGRESS_WORDS, QUEUE, QUEUE_PAIR, RECEIVE, REGION, REPLY, REQUEST, SEND,
    STATES, WRITE, BadValue, takes_bytes)
from .errors import LookError

# ---- bytes


def text_bytes(name):
    return bytes([len(name)]) + name.encode("ascii")


def field_bytes(table, record):
    return b"".join(record[name].to_bytes(size, "big") for name, size, _ in table)


def list_bytes(size, items, spell):
    return len(items).to_bytes(size, "big") + b"".join(map(spell, items))


def region_bytes(region):
    return text_bytes(region["name"]) + field_bytes(REGION, region) + region["bytes"]


def queue_bytes(queue):
    entries = list_bytes(4, queue["entries"], lambda entry: field_bytes(ENTRY, entry))
    return text_bytes(queue["name"]) + field_bytes(QUEUE, queue) + entries


def receive_bytes(receive):
    return field_bytes(RECEIVE, receive)


def request_bytes(request):
    return field_bytes(REQUEST, request) + (request["bytes"] or b"")


def progress_bytes(progress):
    if progress is None:
        return bytes([NO_MESSAGE])
    if "receive" in progress:
        return bytes([SEND]) + field_bytes(PROGRESS[SEND], progress) + receive_bytes(progress["receive"])
    return bytes([WRITE]) + field_bytes(PROGRESS[WRITE], progress)


def connection_bytes(link):
    replies = list_bytes(1, link["replies"], lambda reply: field_bytes(REPLY, reply))
    return field_bytes(CONNECTION, link) + progress_bytes(link["in_progress"]) + replies


def queue_pair_bytes(end):
    link = connection_bytes(end["connection"]) if end["connection"] else b""
    work = list_bytes(2, end["requests"], request_bytes) + list_bytes(2, end["receives"], receive_bytes)
    return text_bytes(end["name"]) + field_bytes(QUEUE_PAIR, end) + link + work


def dump_bytes(image):
    """The dump of an image."""
    return (
        MAGIC + image["version"].to_bytes(2, "big") + text_bytes(image["name"])
        + list_bytes(2, image["domains"], text_bytes) + list_bytes(2, image["regions"], region_bytes)
        + list_bytes(2, image["completion_queues"], queue_bytes) + list_bytes(2, image["queue_pairs"], queue_pair_bytes))


# ---- to JSON


def shown(table, record):
    return {name: form.show(record[name]) for name, _, form in table}


def progress_json(progress):
    if progress is None:
        return None
    code = SEND if "receive" in progress else WRITE
    told = {"kind": PROGRESS_WORDS[code], **shown(PROGRESS[code], progress)}
    return told | ({"receive": shown(RECEIVE, progress["receive"])} if code == SEND else {})


def connection_json(link):
    replies = [shown(REPLY, reply) for reply in link["replies"]]
    return {**shown(CONNECTION, link), "in_progress": progress_json(link["in_progress"]), "replies": replies}


def request_json(request):
    return {**shown(REQUEST, request), "bytes": None if request["bytes"] is None else request["bytes"].hex()}


def queue_pair_json(end):
    return {
        "name": end["name"], **shown(QUEUE_PAIR, end), "connection": end["connection"] and connection_json(end["connection"]),
        "requests": [request_json(r) for r in end["requests"]], "receives": [shown(RECEIVE, r) for r in end["receives"]]}


def to_json(image):
    """The image as a value for JSON."""
    return {
        "version": image["version"], "name": image["name"], "domains": image["domains"],
        "regions": [{"name": r["name"], **shown(REGION, r), "bytes": r["bytes"].hex()} for r in image["regions"]],
        "completion_queues": [
            {"name": q["name"], **shown(QUEUE, q), "entries": [shown(ENTRY, e) for e in q["entries"]]} for q in image["completion_queues"]],
        "queue_pairs": [queue_pair_json(end) for end in image["queue_pairs"]]}


# ---- from JSON


class Taking:
    """Takes a value of JSON apart; what is not as it must be is told with its path."""

    def __init__(self, value, path="the image"):
        self.value, self.path = value, path

    def fail(self, what):
        raise LookError(f"{self.path}: {what}")

    def record(self, table, *more):
        """The fields of an object that has these of the table and some more, and no others."""
        names = {name for name, _, _ in table} | set(more)
        if type(self.value) is not dict:
            self.fail("an object must stand here")
        for name in sorted(names ^ set(self.value)):
            self.fail(f"the field {name} is missing" if name in names else f"there is no field {name}")
        return {name: self.at(name).number(size, form) for name, size, form in table}

    def at(self, name):
        return Taking(self.value[name], f"{self.path}.{name}" if self.path != "the image" else name)

    def number(self, size, form):
        try:
            n = form.read(self.value)
        except BadValue:
            self.fail(f"{form.what} must stand here")
        if n >= 256**size:
            self.fail(f"it does not fit in {size} bytes")
        return n

    def items(self, take):
        if type(self.value) is not list:
            self.fail("a list must stand here")
        return [take(Taking(value, f"{self.path}[{place}]")) for place, value in enumerate(self.value)]

    def name(self):
        if type(self.value) is not str or not self.value.isascii() or len(self.value) > 255:
            self.fail("a name must stand here")
        return self.value

    def hidden(self):
        """Bytes as hexadecimal digits."""
        try:
            if type(self.value) is str and not any(c.isspace() for c in self.value):
                return bytes.fromhex(self.value)
        except ValueError:
            pass
        return self.fail("an even number of hexadecimal digits must stand here")


def take_region(taking):
    told = taking.record(REGION, "name", "bytes")
    told |= {"name": taking.at("name").name(), "bytes": taking.at("bytes").hidden()}
    if len(told["bytes"]) != told["length"]:
        taking.fail(f"length is {told['length']}, and there are {len(told['bytes'])} bytes")
    return told


def take_queue(taking):
    told = taking.record(QUEUE, "name", "entries")
    entries = taking.at("entries").items(lambda entry: entry.record(ENTRY))
    return told | {"name": taking.at("name").name(), "entries": entries}


def take_request(taking):
    told = taking.record(REQUEST, "bytes")
    has_bytes = takes_bytes(told["kind"])
    if has_bytes == (taking.value["bytes"] is None):
        taking.fail("a WRITE or SEND has bytes, and no other request has (null)")
    told["bytes"] = taking.at("bytes").hidden() if has_bytes else None
    if has_bytes and len(told["bytes"]) != told["length"]:
        taking.fail(f"length is {told['length']}, and there are {len(told['bytes'])} bytes")
    return told


def take_progress(taking):
    if taking.value is None:
        return None
    word = taking.value.get("kind") if type(taking.value) is dict else None
    if word not in PROGRESS_WORDS.values():
        taking.fail("null, or an object whose kind is send or write, must stand here")
    if word == PROGRESS_WORDS[WRITE]:
        return taking.record(PROGRESS[WRITE], "kind")
    return taking.record(PROGRESS[SEND], "kind", "receive") | {"receive": taking.at("receive").record(RECEIVE)}


def take_connection(taking):
    told = taking.record(CONNECTION, "in_progress", "replies")
    replies = taking.at("replies").items(lambda reply: reply.record(REPLY))
    return told | {"in_progress": take_progress(taking.at("in_progress")), "replies": replies}


def take_queue_pair(taking):
    told = taking.record(QUEUE_PAIR, "name", "connection", "requests", "receives")
    if (told["state"] == 0) != (taking.value["connection"] is None):
        taking.fail(f"connection is null where the state is {STATES.show(0)}, and nowhere else")
    link = take_connection(taking.at("connection")) if told["state"] else None
    work = {
        "requests": taking.at("requests").items(take_request),
        "receives": taking.at("receives").items(lambda receive: receive.record(RECEIVE))}
    return told | {"name": taking.at("name").name(), "connection": link} | work


def from_json(value):
    """The image of a value of JSON."""
    taking = Taking(value)
    taking.record([], "version", "name", "domains", "regions", "completion_queues", "queue_pairs")
    if type(value["version"]) is not int or not 0 <= value["version"] < 2**16:
        taking.fail("version must be a number of two bytes")
    return {
        "version": value["version"], "name": taking.at("name").name(),
        "domains": taking.at("domains").items(Taking.name), "regions": taking.at("regions").items(take_region),
        "completion_queues": taking.at("completion_queues").items(take_queue),
        "queue_pairs": taking.at("queue_pairs").items(take_queue_pair)}
