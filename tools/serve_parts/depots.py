"""The folders of depots on several machines, and dumps that are carried between them.

A dump has its name in one folder at most at each moment of a carry:

1. the file is claimed in its own folder: it is renamed to NAME.TOKEN.taken;
2. its bytes are written in the other folder, as NAME.TOKEN.part, and synced;
3. the copy gets the name by a hard link, which refuses a name that is taken;
4. the claimed file is removed.

Where a step fails, the steps before it are undone as far as they can be.
"""
import os
import secrets
import shlex
import subprocess

MAKE = 'mkdir -p -m 700 -- "$1"'
CLAIM = 'mv -n -T -- "$1/$2" "$1/$2.$3.taken" && test -e "$1/$2.$3.taken" && sync -- "$1"'
READ = 'exec cat -- "$1/$2.$3.taken"'
WRITE = 'umask 077; exec dd of="$1/$2.$3.part" conv=excl,fsync status=none'
PUBLISH = 'ln -- "$1/$2.$3.part" "$1/$2" || exit 3; rm -- "$1/$2.$3.part" && sync -- "$1" || { rm -- "$1/$2" && exit 3; }'
DISCARD = 'rm -f -- "$1/$2.$3.part"'
GIVE_BACK = 'ln -- "$1/$2.$3.taken" "$1/$2" && rm -- "$1/$2.$3.taken" && sync -- "$1"'
FORGET = 'rm -- "$1/$2.$3.taken" && sync -- "$1"'
# The status of PUBLISH where the name surely does not lead to the copy.
UNPUBLISHED = 3


class DepotError(Exception):
    """What a depot refused, and the status of the command that failed."""

    def __init__(self, told, status=None):
        super().__init__(told)
        self.status = status


class Depot:
    """A folder, on this machine or on one that a command as `ssh host` reaches."""

    def __init__(self, folder, reach=()):
        self.folder, self.reach = folder, list(reach)

    def __str__(self):
        return " ".join([*self.reach, self.folder])

    def is_same(self, other):
        """Whether the two are one folder."""
        if self.reach or other.reach:
            return (self.folder, self.reach) == (other.folder, other.reach)
        return os.path.realpath(self.folder) == os.path.realpath(other.folder)

    def do(self, script, name, token="", given=b""):
        """Runs a script of the shell there, with the folder, a name and a token, and gives what it writes."""
        words = ["sh", "-c", script, "sh", self.folder, name, token]
        if self.reach:
            # (ssh hands its words to a shell as one line)
            words = [*self.reach, shlex.join(words)] if os.path.basename(self.reach[0]) == "ssh" else [*self.reach, *words]
        done = subprocess.run(words, input=given, stdout=subprocess.PIPE, stderr=subprocess.PIPE, check=False)
        if done.returncode:
            told = done.stderr.decode(errors="replace").strip().splitlines()
            raise DepotError(f"{self}: {told[-1] if told else f'status {done.returncode}'}", done.returncode)
        return done.stdout

    def has(self, name):
        """Whether a dump has that name here."""
        try:
            self.do('test -e "$1/$2"', name)
        except DepotError:
            return False
        return True


def carry(name, here, there):
    """Takes the dump of that name from one depot to another. Where that fails, it has its name here; or it stays claimed here where
    nobody knows whether the copy was published, and the error says so."""
    if here.is_same(there):
        return
    token = secrets.token_hex(4)
    there.do(MAKE, name)
    here.do(CLAIM, name, token)
    try:
        there.do(WRITE, name, token, here.do(READ, name, token))
    except DepotError:
        here.do(GIVE_BACK, name, token)
        there.do(DISCARD, name, token)
        raise
    try:
        there.do(PUBLISH, name, token)
    except DepotError as error:
        if error.status != UNPUBLISHED:
            raise DepotError(f"{error}; the dump is {name}.{token}.taken in {here}, and perhaps {name} in {there}") from error
        here.do(GIVE_BACK, name, token)
        there.do(DISCARD, name, token)
        raise
    here.do(FORGET, name, token)
