"""The words of tools/look."""
import argparse
import importlib
import os
import sys

from .errors import LookError, warn
from .program import INSTALLED, VARIABLE, Program, TriedProgram

SCRIPT_HELP = "the script's file, or - for standard input"
UNFOLD_HELP = "put lines in the place of each settle first, as unfold does; lines are then those of that script"
EVACUATE_HELP = "put lines behind the script that do what evacuate FROM TARGET.. does, and show them too; it stands last"
NODE_HELP = "the script is one of a node, and its answers are in this file; no program is run"

PROGRAM = (
    f"The program is the one of --program, else of the variable {VARIABLE}, else the one built in this repository, "
    f"else {INSTALLED} on the path.")
SIDE = (
    "Shows each line of a script with its number and its answers, and says of each refusal and bad line what to look at. "
    "It ends with the status of the program: 0, 3 for a bad line, 8 where memory ran out.")
LADDER = (
    "Draws devices, contexts and datagrams as a Mermaid sequence diagram, or as SVG. A dotted arrow is a datagram that "
    "`settle` delivered: its answer does not tell what the datagram did.")
PCAP = (
    "Writes every datagram of a script into a capture file, in the order in which they were sent. Line 17 of the script "
    "sends at second 17. tools/jichurpa.lua lets Wireshark read the messages of moving.")
STATS = (
    "Counts the datagrams of a script by kind, what they did, expiries and waits, completions and refusals, and tells of "
    "each move its pages, its dump's bytes, and the datagrams and lines until the ends run again. With --node: what the log "
    "of a node tells of this.")
CHECK = (
    "Holds a capture of RoCEv2 connections against the protocol, and tells the first datagram that an end would not send or "
    "answer so, with the rule. The terms of a connection are the number and the address of each end, `mtu` M, `psn` X Y, and "
    "`reads` N if that is known. It ends with 0, or with 13 where a rule is broken.")
UNFOLD = (
    "Writes the script with lines `go`, `deliver`, `rnr` and `expire` in the place of each `settle`, as far as the program "
    "confirms them: the same answers, and the same datagrams byte for byte.")
GENERATE = (
    "Writes the generated script that the command `bulk` plays for the same numbers. With --hostile, lines before each `settle` lose, repeat, "
    "reorder and delay PERCENT of the datagrams, and let timers expire. The same words give the same script.")
DUMP = (
    "Shows every field of a dump: the place where it begins, its bytes and its value. The dump is a file of a depot, a line "
    "`dump N HEX` of answers, or hexadecimal digits. Of several dumps each is shown.")


def parser():
    top = argparse.ArgumentParser(prog="look", description="Looks at what a script of the program does.", epilog=PROGRAM)
    top.add_argument("--program", metavar="PATH", help="the program to run")
    top.add_argument("--try", dest="tries", action="store_true", help="run the unproved program by `rt try`, which builds it anew for each run")
    top.add_argument(
        "-i", dest="prompt", nargs="?", const="", metavar="SCRIPT",
        help="a prompt that answers line by line, behind the lines of a script if one is named")
    kinds = top.add_subparsers(dest="kind", metavar="SUBCOMMAND")
    for add in (add_side, add_ladder, add_pcap, add_stats, add_check, add_unfold, add_generate, add_dump):
        add(kinds)
    return top


def subcommand(kinds, name, part, text, description):
    """A subcommand, which the function of its name in a part of look does."""
    words = kinds.add_parser(name, help=text, description=description)
    words.set_defaults(part=part)
    return words


def add_side(kinds):
    words = subcommand(kinds, "side", "side", "each line with its answers", SIDE)
    words.add_argument("script", help=SCRIPT_HELP)
    words.add_argument("--json", action="store_true", help="the same as JSON")
    words.add_argument("--wide", action="store_true", help="cut no long line and no long answer")
    words.add_argument("--node", metavar="LOG", help=NODE_HELP)
    add_evacuate(words)


def add_evacuate(words):
    words.add_argument("--evacuate", nargs="+", type=int, metavar=("FROM", "TARGET"), help=EVACUATE_HELP)


def add_ladder(kinds):
    words = subcommand(kinds, "ladder", "pictures", "a sequence diagram", LADDER)
    words.add_argument("script", nargs="?", help=SCRIPT_HELP)
    words.add_argument("--unfold", action="store_true", help=UNFOLD_HELP)
    words.add_argument("--svg", metavar="FILE", help="draw SVG into the file (needs mscgen)")
    words.add_argument("--first", metavar="LINE", type=int, default=1, help="draw what this line of the script and later ones did")
    words.add_argument("--last", metavar="LINE", type=int, help="draw what this line and earlier ones did")
    words.add_argument("--check", metavar="FILE", nargs="+", help="see that the ladders in documents are current")
    words.add_argument("--refresh", metavar="FILE", nargs="+", help="write the ladders in documents anew")
    add_evacuate(words)


def add_pcap(kinds):
    words = subcommand(kinds, "pcap", "pcap", "a capture for Wireshark", PCAP)
    words.add_argument("script", help=SCRIPT_HELP)
    words.add_argument("file", help="the capture's file, or - for standard output")
    add_evacuate(words)


def add_stats(kinds):
    words = subcommand(kinds, "stats", "stats", "counts, and what moves took", STATS)
    words.add_argument("script", nargs="?", help=SCRIPT_HELP)
    words.add_argument(
        "--bulk", nargs=4, type=int, metavar=("SEED", "CONNECTIONS", "MESSAGES", "MOVES"),
        help="the generated script of docs/commands.md")
    words.add_argument("--node", metavar="LOG", help=NODE_HELP)
    words.add_argument("--depot", metavar="FOLDER", help="with --node: the node's depot, for the bytes of dumps that still lie there")
    words.add_argument("--capture", metavar="FILE", help="with --node: a capture of the node's link in pcap form, for its datagrams by kind")
    words.add_argument("--unfold", action="store_true", help=UNFOLD_HELP)
    words.add_argument("--json", action="store_true", help="the same as JSON")
    add_evacuate(words)


def add_check(kinds):
    words = subcommand(kinds, "check", "check", "a capture against the rules", CHECK)
    words.add_argument("capture", help="the capture's file in pcap form, or - for standard input")
    words.add_argument(
        "--connection", nargs="+", action="append", required=True, metavar="TERM",
        help="NUMBER ADDRESS NUMBER ADDRESS mtu M psn X Y [reads N]; once for each connection")
    words.add_argument("--standard", action="store_true", help="leave out what this project chose where the standard leaves room")
    words.add_argument("--json", action="store_true", help="the same as JSON")


def add_unfold(kinds):
    words = subcommand(kinds, "unfold", "unfold", "lines in the place of each settle", UNFOLD)
    words.add_argument("script", help=SCRIPT_HELP)
    words.add_argument("file", nargs="?", default="-", help="the file to write (else standard output)")
    add_evacuate(words)


def add_generate(kinds):
    words = subcommand(kinds, "generate", "hostile", "the script that bulk plays, also over a hostile network", GENERATE)
    for name in ("seed", "connections", "messages", "moves"):
        words.add_argument(name, type=int, metavar=name.upper(), help="as of bulk")
    words.add_argument("--hostile", type=int, metavar="PERCENT", help="how many of a hundred datagrams meet another fate than to be delivered in order")
    words.add_argument("--out", dest="file", default="-", metavar="FILE", help="the file to write (else standard output)")


def add_dump(kinds):
    words = subcommand(kinds, "dump", "dump", "the fields of a dump", DUMP)
    words.add_argument("source", nargs="?", help="the file, or - for standard input")
    words.add_argument("--play", action="store_true", help="the file is a script: play it, and take the dumps of its answers")
    words.add_argument("--pick", metavar="N", type=int, help="the N-th of several dumps")
    words.add_argument("--json", action="store_true", help="the image as JSON")
    words.add_argument("--lines", action="store_true", help="the lines that show-dump writes")
    words.add_argument("--wide", action="store_true", help="cut no long bytes")
    words.add_argument("--out", metavar="FILE", help="write the bytes of the dump into the file")
    words.add_argument("--from-json", nargs=2, metavar=("FILE", "OUT"), help="write the dump of an image in JSON into OUT")
    words.add_argument("--unchecked", action="store_true", help="with --from-json: also an image that breaks a rule of dumps")


def main(words):
    top = parser()
    asked = top.parse_args(words)
    if (asked.kind is None) == (asked.prompt is None):
        top.print_usage(sys.stderr)
        return 2
    part, call = ("prompt", "prompt") if asked.kind is None else (asked.part, asked.kind)
    try:
        program = TriedProgram() if asked.tries else Program(asked.program)
        # Only the part that is asked for is read.
        return getattr(importlib.import_module(f".{part}", __package__), call)(program, asked)
    except LookError as fault:
        sys.stdout.flush()
        warn(fault)
        return fault.status
    except BrokenPipeError:
        os.dup2(os.open(os.devnull, os.O_WRONLY), sys.stdout.fileno())
        return 1
    except KeyboardInterrupt:
        return 130
