"""look -i: a prompt that answers line by line.

The program reads a whole script before it answers. So each line that is typed is played with all lines before it, and its
own answers are shown. A bad line is told and not kept.
"""
import os
import sys
from pathlib import Path

from .answers import play
from .drawings import mermaid
from .errors import LookError
from .explain import ending_sentence, hint, refusal
from .flights import Story
from .pictures import ladder_of
from .script import FORMS, form_of, lines_of, read_bytes
from .side import print_table
from .world import World

HELP = """\
Type a line of a script; its answers follow. Besides there are:
  :help [VERB]   this text, or the form of a line
  :list          all lines with their answers
  :ladder        a Mermaid sequence diagram of what was done
  :undo          take the last line back
  :save FILE     write the lines into a file
  :quit          leave (also the end of the input)"""


def state_folder():
    """The folder for the history and for lines that were not saved."""
    base = os.environ.get("XDG_STATE_HOME")
    return (Path(base) if base else Path.home() / ".local" / "state") / "jichurpa"


class History:
    """The history of the prompt, where readline is there; without it lines are typed without one."""

    def __init__(self):
        self.file = state_folder() / "look_history"
        try:
            import readline
        except ImportError:
            self.readline = None
            return
        self.readline = readline
        readline.set_completer(self.complete)
        readline.parse_and_bind("tab: complete")
        try:
            readline.read_history_file(self.file)
        except OSError:
            pass

    @staticmethod
    def complete(text, state):
        """The verbs that begin with a text."""
        found = [verb + " " for verb in FORMS if verb.startswith(text)]
        return found[state] if state < len(found) else None

    def keep(self):
        if self.readline:
            try:
                self.file.parent.mkdir(parents=True, exist_ok=True)
                self.readline.write_history_file(self.file)
            except OSError:
                pass


class Prompt:
    """The lines that were kept so far."""

    def __init__(self, program, lines):
        self.program = program
        self.lines = lines
        self.saved = list(lines)

    def script(self, lines=None):
        return b"".join(line + b"\n" for line in (self.lines if lines is None else lines))

    def play(self, lines=None):
        script = self.script(lines)
        return play(self.program, lines_of(script), script)

    def take(self, raw):
        """Plays one more line, and keeps it unless it is bad."""
        played = self.play([*self.lines, raw])
        if played.ending:
            print(played.ending.text)
            print(f"  -> {ending_sentence(played.ending)} The line is not kept.")
            return
        self.lines.append(raw)
        answered = played.answered[-1]
        for answer in answered.answers:
            print(answer)
        note = hint(answered)
        if answered.is_refused:
            world = World()
            for before in played.answered[:-1]:
                world.apply(before)
            note = refusal(world, answered)
        if note:
            print(f"  -> {note}")

    def command(self, words):
        """A line that begins with a colon. False ends the prompt."""
        name, rest = words[0], words[1:]
        if name == ":quit" and not rest:
            return False
        if name == ":help":
            print(HELP if not rest else "\n".join(form_of(w) if w in FORMS else f"{w}: no line begins with it" for w in rest))
        elif name == ":list" and not rest:
            print_table(self.play(), wide=False)
        elif name == ":ladder" and not rest:
            print("\n".join(mermaid(ladder_of(Story(self.program, self.script())))))
        elif name == ":undo" and not rest and self.lines:
            print(f"taken back: {self.lines.pop().decode('latin-1')}")
        elif name == ":save" and len(rest) == 1:
            self.save(Path(rest[0]))
        else:
            print(f"{' '.join(words)}: not one of the lines that :help tells, or there is nothing to take back")
        return True

    def save(self, path):
        try:
            path.write_bytes(self.script())
        except OSError as fault:
            raise LookError(f"{path}: {fault.strerror}") from None
        self.saved = list(self.lines)
        print(f"{path}: {len(self.lines)} lines")

    def line(self, text):
        """One line that was typed. False ends the prompt."""
        try:
            if text.lstrip().startswith(":"):
                return self.command(text.split())
            if text.strip(" "):
                self.take(text.encode("utf-8", "surrogateescape"))
        except LookError as fault:
            print(f"look: {fault}")
        return True

    def run(self):
        while True:
            try:
                text = input(f"{len(self.lines) + 1}> " if sys.stdin.isatty() else "")
            except EOFError:
                break
            except KeyboardInterrupt:
                print()
                continue
            if not self.line(text):
                break

    def leave(self):
        """Lines that were not saved are put where they can be found."""
        if self.lines == self.saved:
            return
        path = state_folder() / "last.script"
        lines = "1 line was" if len(self.lines) == 1 else f"{len(self.lines)} lines were"
        try:
            path.parent.mkdir(parents=True, exist_ok=True)
            path.write_bytes(self.script())
            print(f"{lines} not saved; the script is in {path}")
        except OSError as fault:
            print(f"{lines} not saved, and {path} cannot be written: {fault.strerror}")


def prompt(program, asked):
    """The prompt, behind the lines of a script if one is named."""
    lines = [line.raw for line in lines_of(read_bytes(asked.prompt))] if asked.prompt else []
    session, history = Prompt(program, lines), History()
    if lines:
        played = session.play()
        print_table(played, wide=False)
        if played.ending:
            raise LookError(f"{asked.prompt} is not played to its end, so no line can follow it")
    session.run()
    history.keep()
    session.leave()
    return 0
