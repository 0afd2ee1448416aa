"""A process of `jichurpa serve` that is driven by lines: a line goes in, and its answer comes out."""
import errno
import os
import queue
import stat
import subprocess
import threading
import time

# A line that no version of the language has, and what is answered: the answers of all lines before it have come then.
FENCE = "="
FENCED = "bad line 1 word"


class Gone(Exception):
    """The node has ended, or did not answer in its time."""


class Node:
    """A node whose lines go into one file and whose answers come out of another."""

    def __init__(self, name, into, out, process=None, log=None):
        """`log` is a file that is written to, or None: each line that is asked and heard, with its moment, as docs/traces.md says."""
        self.name, self.into, self.out, self.process, self.log = name, into, out, process, log
        self.lock = threading.Lock()
        self.answers = queue.Queue()
        self.last = None
        self.reader = threading.Thread(target=self._read, daemon=True)
        self.reader.start()

    @classmethod
    def start(cls, name, words, log=None, **given):
        """A node that a command starts; the command may be ssh."""
        try:
            process = subprocess.Popen(words, stdin=subprocess.PIPE, stdout=subprocess.PIPE, **given)
        except OSError as error:
            raise Gone(f"{name} cannot be started: {error.filename or words[0]}: {error.strerror}") from error
        return cls(name, process.stdin, process.stdout, process, log)

    @classmethod
    def attach(cls, name, into, out):
        """A node that runs already, whose input and output are two named pipes with these paths."""
        try:
            for path in (into, out):
                if not stat.S_ISFIFO(os.stat(path).st_mode):
                    raise Gone(f"{name}: {path} is no named pipe")
            # (a pipe that nobody reads would be waited for)
            writing = os.open(into, os.O_WRONLY | os.O_NONBLOCK)
            os.set_blocking(writing, True)
            return cls(name, os.fdopen(writing, "wb", buffering=0), open(out, "rb"))
        except OSError as error:
            why = "no process reads it" if error.errno == errno.ENXIO else error.strerror
            raise Gone(f"{name}: {error.filename}: {why}") from error

    def _read(self):
        for line in self.out:
            self.last = line.decode(errors="replace").rstrip("\n")
            self.note("<", self.last)
            self.answers.put(self.last)
        self.answers.put(None)

    def note(self, sign, *lines):
        """Writes lines into the log, where there is one."""
        if self.log:
            with self.lock:
                moment = time.monotonic_ns()
                self.log.write("".join(f"{sign} {moment} {line}\n" for line in lines))

    def send(self, *lines):
        """Writes lines."""
        self.note(">", *lines)
        try:
            self.into.write("".join(line + "\n" for line in lines).encode())
            self.into.flush()
        except (OSError, ValueError) as error:
            raise self.ended() from error

    def answer(self, timeout=20):
        """The next line of the answers."""
        try:
            line = self.answers.get(timeout=timeout)
        except queue.Empty:
            raise Gone(f"{self.name} did not answer within {timeout} s") from None
        if line is None:
            self.answers.put(None)
            raise self.ended()
        return line

    def ended(self):
        """That the node has ended, with the last line that it wrote."""
        self.reader.join(5)
        return Gone(f"{self.name} has ended; its last line was `{self.last}`" if self.last else f"{self.name} has ended")

    def ask(self, line, timeout=20):
        """The answer of a line that is answered in one line."""
        self.send(line)
        return self.answer(timeout)

    def ask_each(self, lines, timeout=20):
        """The answers of lines that are answered in one line each. All are written before the first answer is waited for."""
        lines = list(lines)
        self.send(*lines)
        return [self.answer(timeout) for _ in lines]

    def poll(self, cq, most=256, timeout=20):
        """The completions that a queue hands out."""
        self.send(f"poll {cq} {most}", FENCE)
        told = []
        while (line := self.answer(timeout)) != FENCED:
            told.append(line)
        return [] if told == ["none"] else told

    def show(self, what="", timeout=20):
        """What `show` answers, as a list of pairs of a key and a value."""
        return pairs_of(self.ask(f"show {what}".rstrip(), timeout))

    def close(self, timeout=20):
        """Ends the input, and waits until the node has ended. Its status, where it was started here."""
        try:
            self.into.close()
        except OSError:
            pass
        return self.process.wait(timeout) if self.process else None

    def kill(self):
        """Kills a node that was started here, and waits for it."""
        if self.process and self.process.poll() is None:
            self.process.kill()
        if self.process:
            self.process.wait()
        try:
            self.into.close()
        except OSError:
            pass
        if self.process:
            # (what it wrote ends now, and so does the thread that reads it)
            self.reader.join()
            self.out.close()


def pairs_of(line):
    """The pairs of a key and a value of a line of `show`."""
    words = line.split()
    return list(zip(words[0::2], words[1::2]))
