"""What the program is built from: its crates, their sources, and the kit."""
import hashlib
import pathlib
import shutil
import subprocess

TOP = pathlib.Path(__file__).resolve().parent.parent.parent
CRATES = TOP / "crates"
PROGRAM = "rdma_cli"
BUILT = CRATES / PROGRAM / "out" / PROGRAM


class BuildError(Exception):
    """Why there is no program or no release."""


def used_crates():
    """What each crate of this repository uses, by crates.txt."""
    uses = {}
    for line in (TOP / "crates.txt").read_text(encoding="utf-8").splitlines():
        head, colon, used = line.partition("#")[0].partition(":")
        if colon:
            uses[head.split()[0]] = used.split()
    return uses


def static_library():
    """Where the C library is built, or None: the crate that crates.txt marks as a static library."""
    for line in (TOP / "crates.txt").read_text(encoding="utf-8").splitlines():
        words = line.partition(":")[0].split()
        if words[1:] == ["staticlib"] and not line.startswith("#"):
            return CRATES / words[0] / "out" / f"lib{words[0]}.a"
    return None


def crates_below(name):
    """The crates of this repository that a crate is built from, itself included, and those of the kit."""
    uses = used_crates()
    own, of_kit, left = set(), set(), [name]
    while left:
        crate = left.pop()
        if crate not in uses:
            of_kit.add(crate)
        elif crate not in own:
            own.add(crate)
            left += uses[crate]
    if name not in own:
        raise BuildError(f"crates.txt has no crate {name}")
    return sorted(own), sorted(of_kit)


def kit_folder():
    """The folder of the kit that `rt` on the path belongs to."""
    rt = shutil.which("rt")
    if rt is None:
        raise BuildError("the Rattle kit is not there: no `rt` on the path. README.md says what it is, and what runs without it")
    return pathlib.Path(rt).resolve().parent.parent


def kit_identity():
    """What tells one kit from another, in one line."""
    identity = kit_folder() / "KIT-ID"
    if identity.is_file():
        return identity.read_text(encoding="utf-8").splitlines()[0]
    told = subprocess.run(["rt", "version"], stdout=subprocess.PIPE, text=True, check=False)
    if told.returncode:
        raise BuildError(f"`rt version` ended with status {told.returncode}")
    return told.stdout.splitlines()[0]


def checksum():
    """The checksum of what the program is built from: the kit, and each source of each crate below it."""
    total = hashlib.sha256(kit_identity().encode())
    for crate in crates_below(PROGRAM)[0]:
        for file in sorted((CRATES / crate / "src").rglob("*.rt")):
            content = file.read_bytes()
            total.update(f"\n{file.relative_to(CRATES)} {len(content)}\n".encode() + content)
    return total.hexdigest()[:32]
