"""What is said of a script that was not played to its end, on standard error beside what is shown."""
from .errors import LookError, warn
from .explain import ending_sentence
from .script import NODE_FORMS

# Lines that only a node has, and some that only `play` has.
OF_A_NODE = ("link", "serve", "until", "wait", "show")
OF_PLAY = ("device", "connect", "deliver", "lose", "wire", "settle", "dump")


def is_of_a_node(lines):
    """Whether the lines of a script are those of a node."""
    verbs = {line.verb for line in lines}
    return not verbs.isdisjoint(OF_A_NODE) and verbs.isdisjoint(OF_PLAY)


def shown_name(name):
    return "the input" if name == "-" else name


def node_sentence(name):
    return (f"{shown_name(name)} is the script of a node, and `play` has no such lines: "
            "run it by the command `node` or `serve`, and see its answers by `tools/look side SCRIPT --node LOG`")


def refuse_node(played, name):
    """Ends look where `play` was given the script of a node: nothing of it can be shown."""
    lines = [answered.line for answered in played.answered] + played.unplayed
    if played.ending and is_of_a_node(lines):
        raise LookError(node_sentence(name), played.status)


def status_of(played, name):
    """0 where the script was played to its end. Else the program's own status, after a warning that says where and why it ended."""
    if played.ending is None:
        return 0
    refuse_node(played, name)
    count = len(played.answered)
    shown = "line is shown" if count == 1 else f"{count} lines are shown"
    warn(f"{shown_name(name)} ended early, and only its first {shown}: {played.ending.text}. {ending_sentence(played.ending)}")
    return played.status


def status_of_log(played, name):
    """The same for the log of a node, which may also end because the node still ran."""
    if played.status:
        warn(f"{name} ended early: {played.ending.text}. {ending_sentence(played.ending, NODE_FORMS)}")
    return played.status
