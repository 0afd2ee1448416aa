"""look dump: the fields of a dump, the dump as JSON, and a dump from JSON."""
import json
import re
from pathlib import Path

from .answers import play
from .dump_format import KEY, MAGIC, PAIR, STATES
from .dump_reader import Fault, read_dump
from .dump_writer import dump_bytes, from_json, to_json
from .early import status_of
from .errors import LookError
from .script import lines_of, read_bytes

HEX_LINE = re.compile(r"(?:[0-9a-fA-F]{2})+")
ANSWER = re.compile(r"dump (\d+)(?: ([0-9a-f]+))?")
SHOWN_LINE = re.compile(r"(?:context|domain|region|cq|qp) \S.*")
MOST_DIGITS = 48


def dumps_in_lines(lines):
    """The bytes of the dumps in lines of answers or of hexadecimal digits."""
    found, long = [], []
    for line in lines:
        line = line.strip()
        answer = ANSWER.fullmatch(line)
        if answer and answer[2]:
            found.append(bytes.fromhex(answer[2]))
        elif answer:
            long.append(int(answer[1]))
        elif HEX_LINE.fullmatch(line):
            found.append(bytes.fromhex(line))
    if not found and long:
        raise LookError(f"the answer tells {long[0]:,} bytes and shows none, as it has over 4,096; the file in a node's depot has them")
    return found


def dumps_in(name, data):
    """The bytes of the dumps in a depot's file, in answers, or in hexadecimal digits."""
    if data.startswith(MAGIC[:-1]) or not data.isascii():
        return [data]
    lines = data.decode("ascii").splitlines()
    found = dumps_in_lines(lines)
    if found:
        return found
    if lines and all(SHOWN_LINE.fullmatch(line) for line in lines):
        raise LookError(f"{name}: lines of show-dump have not all fields; give the depot's file itself")
    raise LookError(f"{name}: no dump: neither a depot's file, nor a line `dump N HEX`, nor hexadecimal digits")


def dumps_of_script(program, name):
    """The bytes of the dumps that a script's answers show, and the status with which the script ended."""
    script = read_bytes(name)
    played = play(program, lines_of(script), script)
    status = status_of(played, name)
    found = dumps_in_lines([a.first for a in played.answered if a.line.verb == "dump"])
    if not found:
        raise LookError(f"{name}: no line of the script shows a dump; `dump N` does, between the stop and the restore of N", status or 1)
    return found, status


def read_or_fail(data):
    """The image and the fields, or one line on the first fault."""
    try:
        return read_dump(data)
    except Fault as fault:
        raise LookError(f"{fault}: the fault is at {fault.field}") from None


# ---- text


def value_text(value, wide):
    if isinstance(value, list):
        return "+".join(value) or "none"
    if isinstance(value, bool):
        return "yes" if value else "no"
    text = str(value)
    return text if wide or len(text) <= MOST_DIGITS else f"{text[:MOST_DIGITS]}.. ({len(text) // 2} bytes)"


def print_fields(fields, wide):
    """A line for each field: where it begins, how many bytes it has, its name and its value."""
    rows = [(str(f.place), str(f.size), f.name, value_text(f.shown, wide)) for f in fields]
    heads = ("place", "size", "field", "value")
    widths = [max(len(row[i]) for row in [heads, *rows]) for i in range(3)]
    for place, size, name, value in [heads, *rows]:
        print(f"{place:>{widths[0]}}  {size:>{widths[1]}}  {name:<{widths[2]}}  {value}".rstrip())


def lines_of_image(image):
    """The lines by which show-dump tells what an image holds."""
    yield f"context {image['name']}"
    yield from (f"domain {name}" for name in image["domains"])
    for region in image["regions"]:
        yield f"region {region['name']} {KEY.show(region['local_key'])} {KEY.show(region['remote_key'])} {region['base']} {region['length']}"
    yield from (f"cq {queue['name']} {queue['capacity']} {len(queue['entries'])}" for queue in image["completion_queues"])
    for end in image["queue_pairs"]:
        moves = end["connection"]["moves"] if end["connection"] else 0
        yield f"qp {end['name']} {PAIR.show(end['number'])} {STATES.show(end['state'])} {len(end['requests'])} {len(end['receives'])} {moves}"


# ---- the subcommand


def write_file(name, data):
    try:
        Path(name).write_bytes(data)
    except OSError as fault:
        raise LookError(f"{name}: {fault.strerror}") from None
    print(f"{name}: {len(data)} bytes")


def write_from_json(source, out, unchecked):
    """Writes the dump of an image in JSON; nothing is written where it breaks a rule of dumps."""
    try:
        value = json.loads(read_bytes(source))
    except ValueError as fault:
        raise LookError(f"{source}: no JSON: {fault}") from None
    image = from_json(value)
    data = dump_bytes(image)
    if not unchecked:
        read, _ = read_or_fail(data)
        if read != image:
            raise LookError(f"{source}: its dump reads back as another image")
    write_file(out, data)


def picked(dumps, pick):
    if pick is None:
        return dumps
    if not 1 <= pick <= len(dumps):
        raise LookError(f"--pick {pick}: there are {len(dumps)} dumps")
    return [dumps[pick - 1]]


def dump(program, asked):
    """The subcommand."""
    if asked.from_json:
        write_from_json(*asked.from_json, asked.unchecked)
        return 0
    if asked.source is None:
        raise LookError("dump wants a depot's file, answers or hexadecimal digits; or --from-json")
    found, status = dumps_of_script(program, asked.source) if asked.play else (dumps_in(asked.source, read_bytes(asked.source)), 0)
    found = picked(found, asked.pick)
    read = [read_or_fail(data) for data in found]
    if asked.out:
        if len(found) != 1:
            raise LookError(f"there are {len(found)} dumps; --pick says which one to write")
        write_file(asked.out, found[0])
    elif asked.json:
        told = [to_json(image) for image, _ in read]
        print(json.dumps(told if len(told) > 1 else told[0], indent=1))
    else:
        for place, (image, fields) in enumerate(read):
            if place:
                print()
            if asked.lines:
                print(*lines_of_image(image), sep="\n")
            else:
                print_fields(fields, asked.wide)
    return status
