"""What `evacuate FROM TARGET..` did, as lines behind the script.

By docs/evacuate.md all settles, and then the contexts of the device move one after the other: each is stopped, restored
on the first target that takes it, and all settles. Lines `settle`, `stop`, `restore` and `release` ask for the same. They
are played, and count only where their answers are what `evacuate` wrote.
"""
from dataclasses import dataclass

from .answers import play
from .errors import LookError
from .script import lines_of, read_bytes
from .world import World

EMPTY, NO_COMMAND, NOT_EMPTIED = 0, 2, 14
CAUSES = {"peermoving": "refused PeerMoving", "toomany": "refused TooMany"}


@dataclass
class Step:
    """A line behind the script; its answer begins with these words. A comment has none."""
    words: str
    begins: str = ""


def evacuate_text(program, script, numbers):
    """The lines that `evacuate` writes behind the answers, or None where the script is not played to its end."""
    words = [str(number) for number in numbers]
    status, written = program.run(["evacuate", *words], script)
    if status == NO_COMMAND:
        raise LookError(f"evacuate {' '.join(words)}: ids are 1 to 255, there are 1 to 15 targets, and all ids differ")
    played, answers = program.play(script)
    if played:
        return None
    if status not in (EMPTY, NOT_EMPTIED):
        raise LookError(f"evacuate {' '.join(words)} ended with status {status}")
    told = written.decode("ascii", "replace").splitlines()
    if told[:len(answers)] != answers or len(told) == len(answers):
        raise LookError("evacuate and play answer the script's lines differently")
    return told[len(answers):]


def moving(name, refusing, device):
    """The lines by which a context comes to a device after others refused it."""
    yield Step(f"stop {name}", "stopped")
    for target in refusing:
        yield Step(f"restore {name} {target}", "refused ")
    if device is not None:
        yield Step(f"restore {name} {device}", "ok")


def staying(name, why, left, targets):
    """The lines by which a context stays."""
    if why in CAUSES:
        yield Step(f"stop {name}", CAUSES[why])
        return
    yield from moving(name, targets, None)
    yield Step(f"release {name} {left}", "ok")
    yield Step(f"restore {name} {left}", "ok")
    yield Step("settle", "quiet ")


def steps_of(told, left, targets):
    """The lines that ask for what was told."""
    yield Step(f"# evacuate {' '.join(map(str, [left, *targets]))}")
    if told[0] != "refused NoSuch":
        yield Step("settle", "quiet ")
    for text in told:
        yield Step(f"# {text}")
        words = text.split()
        if words[0] == "moved":
            yield from moving(words[1], targets[:targets.index(int(words[2]))], int(words[2]))
            yield Step("settle", "quiet ")
        elif words[0] == "stays":
            yield from staying(words[1], words[2], left, targets)


def confirm(program, script, steps, left, is_empty):
    """Sees that the lines answer what `evacuate` told, and that no context lives on a device that it called empty."""
    played = play(program, lines_of(script), script)
    if played.ending:
        raise LookError(f"the lines in the place of evacuate are not played to their end: {played.ending.text}")
    for step, answered in zip(steps, played.answered[-len(steps):]):
        if not answered.first.startswith(step.begins):
            raise LookError(f"{step.words!r} answers {answered.first!r}, and evacuate did otherwise")
    world = World()
    for answered in played.answered:
        world.apply(answered)
    living = [context.name for context in world.contexts.values() if context.device == left]
    if is_empty and living:
        raise LookError(f"evacuate called device {left} empty, and {', '.join(living)} live there")


def evacuated_script(program, script, numbers):
    """The script with lines behind it that do what `evacuate` does, as bytes."""
    left, *targets = numbers
    if not targets:
        raise LookError("--evacuate wants the device to be emptied, and one target or more")
    told = evacuate_text(program, script, numbers)
    if told is None:
        return script
    steps = list(steps_of(told, left, targets))
    whole = script if script.endswith(b"\n") or not script else script + b"\n"
    new = whole + "".join(step.words + "\n" for step in steps).encode()
    confirm(program, new, steps, left, told[-1] == "empty")
    return new


def script_asked(program, asked):
    """The script of a subcommand, with the lines of an evacuation behind it where that is asked for."""
    script = read_bytes(asked.script)
    return evacuated_script(program, script, asked.evacuate) if asked.evacuate else script
