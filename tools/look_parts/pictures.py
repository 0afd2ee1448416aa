"""look ladder: the ladder of a script, and the ladders that stand in documents.

A ladder stands in a document between two lines; the path is one from the top of the repository:

    <!-- ladder of examples/NAME.script -->
    ```mermaid
    ..
    ```
    <!-- end of the ladder -->

Behind the path may stand `, evacuate FROM TARGET..`, so that what the command of these words did is drawn too; and
`, lines A to B`, so that only what these lines did is drawn.
"""
import re
from pathlib import Path

from .drawings import mermaid, write_svg
from .early import status_of
from .errors import LookError, warn
from .evacuation import evacuated_script
from .flights import Story
from .ladder import Maker
from .program import TOP
from .script import read_bytes
from .unfold import script_to_show

BEGIN = re.compile(r"<!-- ladder of (?P<path>\S+?)(?:, evacuate (?P<evacuate>[\d ]+))?(?:, lines (?P<first>\d+) to (?P<last>\d+))? -->\s*$")
END = "<!-- end of the ladder -->"
OPENING, CLOSING = "```mermaid", "```"


def check_range(story, first, last):
    """Refuses lines that the script does not have."""
    count = len(story.played.answered) + len(story.played.unplayed)
    if first > max(1, count):
        raise LookError(f"--first {first} is beyond the end: the script has {count} lines")
    if first < 1 or last is not None and last < first:
        raise LookError(f"lines {first} to {count if last is None else last} are none: lines count from 1, and --last is not before --first")


def ladder_of(story, first=1, last=None):
    check_range(story, first, last)
    return Maker(story, first, last).make()


def block_of(program, begin):
    """The lines of the block that a line of a document asks for."""
    script = read_bytes(TOP / begin["path"])
    if begin["evacuate"]:
        script = evacuated_script(program, script, [int(word) for word in begin["evacuate"].split()])
    last = int(begin["last"]) if begin["last"] else None
    return [OPENING, *mermaid(ladder_of(Story(program, script), int(begin["first"] or 1), last)), CLOSING]


def refreshed(program, name, text):
    """The document with its ladders as they should be, and how many it has."""
    lines, out, count, at = text.split("\n"), [], 0, 0
    while at < len(lines):
        out.append(lines[at])
        begin = BEGIN.match(lines[at])
        at += 1
        if not begin:
            continue
        end = next((i for i in range(at, len(lines)) if lines[i].strip() == END), None)
        if end is None:
            raise LookError(f"{name}:{at}: no line {END} follows")
        out += [*block_of(program, begin), lines[end]]
        count, at = count + 1, end + 1
    return "\n".join(out), count


def check_documents(program, names, write):
    """Compares the ladders of documents, or writes them anew. The status is 1 where one is not current."""
    stale = 0
    for name in names:
        text = read_bytes(name).decode("utf-8")
        new, count = refreshed(program, name, text)
        if new == text:
            print(f"{name}: ladders: {count}, current")
        elif write:
            Path(name).write_text(new, encoding="utf-8")
            print(f"{name}: ladders: {count}, written anew")
        else:
            stale += 1
            print(f"{name}: a ladder is not current; tools/look ladder --refresh {name} writes it anew")
    return 1 if stale else 0


def ladder(program, asked):
    """The subcommand."""
    if asked.check or asked.refresh:
        if asked.script or asked.svg or asked.evacuate:
            raise LookError("--check and --refresh take documents alone")
        return check_documents(program, asked.check or asked.refresh, bool(asked.refresh))
    if asked.script is None:
        raise LookError("ladder wants a script, or --check with documents")
    story = Story(program, script_to_show(program, asked))
    status = status_of(story.played, asked.script)
    drawn = ladder_of(story, asked.first, asked.last)
    if not drawn.steps:
        warn(f"nothing is drawn: {'these lines' if asked.last or asked.first > 1 else 'the lines of the script'} did nothing that a ladder shows")
    if asked.svg:
        write_svg(drawn, asked.svg)
    else:
        print("\n".join(mermaid(drawn)))
    return status
