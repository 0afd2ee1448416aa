"""look stats: datagrams by kind, waits and expiries, completions, refusals and moves."""
import json
from collections import Counter

from . import node
from .early import status_of, status_of_log
from .errors import LookError
from .flights import Story
from .generated import generated_script
from .moves import moves_of, weigh
from .unfold import script_to_show, unfold_script

NOT_TOLD = "not told (settle)"


def datagrams_by_kind(story):
    """A row for each kind of datagram."""
    rows = {}
    for flight in story.flights.values():
        kind = flight.packet.kind if flight.packet else "no longer kept"
        row = rows.setdefault(kind, Counter())
        row["sent"] += 1
        row["sent again"] += flight.again
        row["lost"] += bool(flight.lost)
        row["deliveries"] += len(flight.deliveries)
        row["delivered again"] += max(0, len(flight.deliveries) - 1)
        row["never delivered"] += flight.is_pending
    return rows


def effects_of(story):
    """What deliveries did, by the word that tells it."""
    return Counter(NOT_TOLD if d.did is None else d.did for f in story.flights.values() for d in f.deliveries)


def timers_of(story):
    """Expiries and waits, by their answers."""
    told = Counter()
    for answered in story.copy.answered:
        if answered.is_refused:
            continue
        if answered.line.verb == "expire":
            told["expiries counted" if answered.words[0] == "expired" else answered.first] += 1
        elif answered.line.verb == "rnr":
            told[f"RNR timer {answered.first}"] += 1
    effects = effects_of(story)
    told["answered by an RNR NAK"] = effects["notready"]
    told["waits begun by an RNR NAK"] = effects["waits"]
    return {name: count for name, count in told.items() if count}


def completions_of(story):
    """Completions by kind and status."""
    entries = [answer.split() for a in story.copy.answered for answer in a.answers if answer.startswith("wc ")]
    return Counter(f"{words[3]}, status {words[4]}" for words in entries)


def refusals_of(story):
    return Counter(a.words[1] for a in story.copy.answered if a.is_refused)


def move_row(move):
    return {
        "context": move.context, "from": move.left, "to": move.reached, "stop": move.stop, "restore": move.restore,
        "running": move.running, "lines": move.lines, "datagrams": move.datagrams, "pages": move.pages,
        "dump bytes": move.dump_bytes, "ends": move.ends, "sent RESUME": move.resumed, "run again": move.ran,
    }


def cannot_tell(story):
    """What the answers do not tell of this script."""
    told = []
    if any(a.line.verb == "settle" and not a.is_refused for a in story.copy.answered):
        told.append("What the datagrams that `settle` delivered did, and its expiries and RNR timers, are told by no answer.")
    gone = sum(f.packet is None for f in story.flights.values())
    if gone:
        told.append(f"{gone} datagrams of a `settle` were forgotten before they could be shown: the network keeps the last 16,384.")
    return told


def statistics(story):
    """All of it, as a value for JSON."""
    moves = moves_of(story)
    weigh(story, moves)
    return {
        "lines": len(story.copy.answered),
        "ending": story.played.ending.text if story.played.ending else None,
        "datagrams": {kind: dict(row) for kind, row in sorted(datagrams_by_kind(story).items())},
        "effects": dict(sorted(effects_of(story).items())),
        "timers": timers_of(story),
        "completions": dict(sorted(completions_of(story).items())),
        "refusals": dict(sorted(refusals_of(story).items())),
        "moves": [move_row(move) for move in moves],
        "not told": cannot_tell(story),
    }


# ---- the generated script

def summary_of(script, answers):
    """The line by which `bulk` sums up a script."""
    entries = [answer.split() for answer in answers if answer.startswith("wc ")]
    quiet = [answer.split()[1] for answer in answers if answer.startswith("quiet ")]
    success = sum(words[4] == "0" for words in entries)
    return f"bulk lines {script.count(10)} completions {len(entries)} success {success} left {quiet[-1] if quiet else 0}"


def bulk_script(program, numbers):
    """The generated script, which has to be summed up as the program sums it up."""
    script = generated_script(*numbers)
    status, written = program.run(["bulk", *map(str, numbers)])
    told = written.decode("ascii", "replace").strip()
    mine = summary_of(script, program.play(script)[1])
    if status or told != mine:
        raise LookError(f"bulk wrote {told!r} with status {status}, and the script of docs/commands.md gives {mine!r}")
    return script, told


# ---- text

def table(heads, rows):
    """Rows under heads; numbers stand to the right."""
    cells = [heads] + [["-" if cell is None else str(cell) for cell in row] for row in rows]
    widths = [max(len(row[i]) for row in cells) for i in range(len(heads))]
    right = [i > 0 and all(isinstance(row[i], (int, type(None))) for row in rows) for i in range(len(heads))]
    for row in cells:
        print("  " + "  ".join(c.rjust(w) if r else c.ljust(w) for c, w, r in zip(row, widths, right)).rstrip())


def counts(title, told):
    if told:
        print(f"{title}:")
        table(["", "count"], list(told.items()))


def print_node(told):
    """What the log of a node tells."""
    print(f"lines answered: {told['lines']}")
    counts("datagrams", told["counts"])
    if told["captured"]:
        print("datagrams of the capture:")
        heads = list(told["captured"][0])
        table(heads, [[row[head] for head in heads] for row in told["captured"]])
    counts("expiries and waits", told["timers"])
    counts("completions", told["completions"])
    counts("refusals", told["refusals"])
    if told["moves"]:
        print("moves (lines are those from `stop` to `restore`):")
        heads = list(told["moves"][0])
        table(heads, [[row[head] for head in heads] for row in told["moves"]])
    for sentence in told["not told"]:
        print(sentence)
    if told["ending"]:
        print(f"The script ended early: {told['ending']}")


def print_text(told):
    print(f"lines answered: {told['lines']}")
    columns = ["sent", "sent again", "lost", "deliveries", "delivered again", "never delivered"]
    rows = told["datagrams"]
    if rows:
        print("datagrams:")
        all_rows = [[kind, *(row[c] for c in columns)] for kind, row in rows.items()]
        total = ["all", *(sum(row[c] for row in rows.values()) for c in columns)]
        table(["kind", *columns], [*all_rows, total])
    counts("what deliveries did", told["effects"])
    counts("expiries and waits", told["timers"])
    counts("completions", told["completions"])
    counts("refusals", told["refusals"])
    if told["moves"]:
        print("moves (lines and datagrams are those from `stop` until the ends run again):")
        heads = list(told["moves"][0])
        table(heads, [[row[head] for head in heads] for row in told["moves"]])
    for sentence in told["not told"]:
        print(sentence)
    if told["ending"]:
        print(f"The script ended early: {told['ending']}")


def node_stats(asked):
    """The statistics of a node's log."""
    if asked.bulk or asked.unfold or asked.evacuate:
        raise LookError("--bulk, --unfold and --evacuate do not go with --node")
    played = node.read_log(asked.script, asked.node)
    told = node.statistics(played, asked)
    status = status_of_log(played, asked.node)
    if asked.json:
        print(json.dumps(told, indent=1))
    else:
        print_node(told)
    return status


def stats(program, asked):
    """The subcommand."""
    if (asked.script is None) == (asked.bulk is None):
        raise LookError("stats wants a script, or --bulk with four numbers")
    if asked.node:
        return node_stats(asked)
    if asked.depot or asked.capture:
        raise LookError("--depot and --capture go with --node")
    if asked.bulk and asked.evacuate:
        raise LookError("--evacuate goes with a script, and not with --bulk")
    summary = None
    if asked.bulk:
        script, summary = bulk_script(program, asked.bulk)
        script = unfold_script(program, script) if asked.unfold else script
    else:
        script = script_to_show(program, asked)
    story = Story(program, script)
    status = status_of(story.played, asked.script)
    told = statistics(story)
    if summary:
        told = {"bulk": summary, **told}
    if asked.json:
        print(json.dumps(told, indent=1))
        return status
    if summary:
        print(summary)
    print_text(told)
    return status
