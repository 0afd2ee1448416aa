"""Scripts: each line is answered before the next one is done."""

from __future__ import annotations

from collections.abc import Iterator

from ..errors import Refused
from .lines import Line, parse_line, script_lines
from .settling import Settling
from .words import BadLine
from .world import World


class BadScript(Exception):
    """A line is in no form; those before it are answered."""

    def __init__(self, number: int, fault: BadLine) -> None:
        super().__init__(f"bad line {number} column {fault.column} {fault.why}")


def answer(world: World, line: Line) -> str:
    """Does a line, and gives the text of its answer without the last newline. Raises OutOfMemory."""
    try:
        if line.word == "settle":
            return Settling(world).run()
        text: str = getattr(world, line.word)(*line.fields)
        return text
    except Refused as refusal:
        return f"refused {refusal.cause.word}"


def play_script(script: bytes) -> Iterator[str]:
    """The answers to the lines of a script, one after the other. Raises BadScript and OutOfMemory behind them."""
    with World() as world:
        for number, text in enumerate(script_lines(script), 1):
            try:
                line = parse_line(text)
            except BadLine as fault:
                raise BadScript(number, fault) from fault
            if line is not None:
                yield answer(world, line)
