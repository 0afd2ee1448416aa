"""look side: each line with its number, its answers beside it, and what to look at."""
import json

from . import node
from .answers import play
from .early import is_of_a_node, node_sentence
from .errors import LookError, warn
from .evacuation import script_asked
from .explain import ending_sentence, hint, refusal
from .script import FORMS, NODE_FORMS, lines_of
from .world import World

WIDEST = 64


class Reader:
    """What says of refusals and endings what to look at, for a script of `play` or one of a node."""

    def __init__(self, is_node=False):
        self.is_node = is_node
        self.world = node.NodeWorld() if is_node else World()

    def refusal(self, answered):
        return self.world.refusal(answered) if self.is_node else refusal(self.world, answered)

    def ending(self, ending):
        return ending_sentence(ending, NODE_FORMS if self.is_node else FORMS)


def rows_of(played, reader):
    """For each line that was played: the line, its answers, and a sentence or None."""
    world = reader.world
    for answered in played.answered:
        note = reader.refusal(answered) if answered.is_refused else hint(answered)
        world.apply(answered)
        yield answered.line, answered.answers, note


def shortened(text, width):
    return text if len(text) <= width else text[:width - 3] + "..."


def print_table(played, wide, reader=None):
    """The table; long lines and answers are cut unless all is asked for."""
    reader = reader or Reader()
    lines = [a.line for a in played.answered] + played.unplayed
    longest = max((len(line.text) for line in lines), default=0)
    width = longest if wide else min(longest, WIDEST)
    places = len(str(len(lines)))

    def show(line, answers):
        first, *more = answers or [""]
        text = line.text if wide else shortened(line.text, width)
        print(f"{line.number:>{places}}  {text:<{width}}  {cut(first)}".rstrip())
        for answer in more:
            print(f"{'':{places}}  {'':{width}}  {cut(answer)}")

    def cut(answer):
        return answer if wide else shortened(answer, WIDEST)

    for line, answers, note in rows_of(played, reader):
        show(line, answers)
        if note:
            print(f"{'':{places}}  -> {note}")
    if played.ending:
        print_ending(played, show, places, reader)


def print_ending(played, show, places, reader):
    if played.unplayed:
        show(played.unplayed[0], [played.ending.text])
    else:
        print(played.ending.text)
    print(f"{'':{places}}  -> {reader.ending(played.ending)}")
    left = len(played.unplayed) - 1
    if left > 0:
        behind = "line behind it was" if left == 1 else f"{left} lines behind it were"
        print(f"{'':{places}}  -> The {behind} not played.")


def as_json(played, reader):
    """The same as a value for JSON."""
    told = [{"line": line.number, "text": line.text, "answers": answers, "note": note} for line, answers, note in rows_of(played, reader)]
    ending = None
    if played.ending:
        ending = {
            "line": played.unplayed[0].number if played.unplayed else None,
            "text": played.ending.text, "note": reader.ending(played.ending),
            "not_played": [line.text for line in played.unplayed],
        }
    return {"status": played.status, "lines": told, "ending": ending}


def side(program, asked):
    """The subcommand. It ends with the status of the program: 0, 3 for a bad line, 8 where memory ran out."""
    if asked.node:
        if asked.evacuate:
            raise LookError("--evacuate goes with a script of `play`, and not with --node")
        played = node.read_log(asked.script, asked.node)
    else:
        script = script_asked(program, asked)
        played = play(program, lines_of(script), script)
        if played.ending and is_of_a_node(lines_of(script)):
            warn(node_sentence(asked.script))
    reader = Reader(bool(asked.node))
    if asked.json:
        print(json.dumps(as_json(played, reader), indent=1))
    else:
        print_table(played, asked.wide, reader)
    return played.status
