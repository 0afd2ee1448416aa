"""Scripts of docs/scripts.md, played over the library: the lines, the network between devices, moves and settling."""

from .lines import Line, parse_line, script_lines
from .player import play_script
from .words import BadLine
from .world import World

__all__ = ["BadLine", "Line", "World", "parse_line", "play_script", "script_lines"]
