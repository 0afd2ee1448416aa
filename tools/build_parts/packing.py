"""Making the tarball of a release."""
import gzip
import hashlib
import io
import os
import pathlib
import re
import subprocess
import tarfile
import tempfile

from .sources import BUILT, PROGRAM, TOP, BuildError, crates_below, kit_folder, kit_identity, static_library
from .trials import trials, unpack

BINDINGS = TOP / "bindings"
PLATFORM = "x86_64-linux"
# Where the program stands in the tarball, and where each file of the library does.
IN_BIN = "bin/jichurpa"
IN_LIB = {"jichurpa.h": "include/jichurpa.h", "libjichurpa.a": "lib/libjichurpa.a", "libjichurpa.so": "lib/libjichurpa.so"}
# The files of the bindings that tell a version, and how.
VERSIONS = {
    "bindings/c/*.h": r'^#define JICHURPA_VERSION "(\S+)"', "bindings/c/*.pc": r"^Version: (\S+)$", "bindings/rust/Cargo.toml": r'^version = "(\S+)"$',
    "bindings/python/pyproject.toml": r'^version = "(\S+)"$', "bindings/python/jichurpa/__init__.py": r'^__version__ = "(\S+)"$'}


def git(*words):
    """What git answers at the top of the repository, as bytes."""
    told = subprocess.run(["git", *words], cwd=TOP, stdout=subprocess.PIPE, stderr=subprocess.PIPE, check=False)
    if told.returncode:
        raise BuildError(f"git {words[0]}: {told.stderr.decode(errors='replace').strip()}")
    return told.stdout


def told_version(program):
    """The version that the program answers."""
    try:
        told = subprocess.run([program, "--version"], stdin=subprocess.DEVNULL, stdout=subprocess.PIPE, text=True, errors="replace", check=False)
    except OSError as fault:
        raise BuildError(f"there is no program {program}: {fault.strerror}. Run the gate first, or `rt run` in {TOP / 'crates' / PROGRAM}") from None
    found = re.match(r"jichurpa (\d+\.\d+\.\d+)\b", told.stdout)
    if told.returncode or not found:
        raise BuildError(f"{program} --version answers {told.stdout[:60]!r}, and ends with status {told.returncode}")
    return found[1]


def versions_in(top):
    """The version that each file tells which has one: a name and a version, or None where it tells none."""
    places = [
        ("docs/jichurpa.1", r'^\.Os "Jichurpa (\S+)"$'), ("CHANGELOG.md", r"^## (\d\S*)"), ("README.md", r"tar xzf jichurpa-(\d+\.\d+\.\d+)-"),
        ("docs/scripts.md", r"the program of version (\d+\.\d+\.\d+) plays")]
    places += [(str(it.relative_to(top)), form) for files, form in VERSIONS.items() for it in sorted(top.glob(files))]
    for name, form in places:
        found = re.search(form, (top / name).read_text(encoding="utf-8"), re.MULTILINE)
        yield name, found and found[1]


def check_versions(top, version):
    """Refuses a release whose files tell another version than the program."""
    for name, told in versions_in(top):
        if told != version:
            raise BuildError(f"the program has version {version}, and {name} tells {told or 'none'}")


def tracked_files(trial):
    """The files of the commit that is checked out: a name, whether it may be run, and its bytes. In a trial, as they stand."""
    changed = git("status", "--porcelain").decode()
    if changed and not trial:
        raise BuildError(f"the repository has changes that are not committed:\n{changed.rstrip()}")
    words = ["--cached", "--others", "--exclude-standard"] if trial else ["--cached"]
    for name in sorted(set(git("ls-files", "-z", *words).decode().split("\0")) - {""}):
        path = TOP / name
        if path.is_file():
            yield name, os.access(path, os.X_OK), path.read_bytes()


def kit_crates(names):
    """These crates of the kit and those that they use, where the kit tells it."""
    found, left = set(), list(names)
    while left:
        crate = left.pop()
        told = kit_folder() / "rlibs" / f"{crate}.rlib" / "format"
        if crate not in found:
            found.add(crate)
            left += re.findall(r"^dep (\w+)$", told.read_text(encoding="utf-8"), re.MULTILINE) if told.is_file() else []
    return sorted(found)


def licences():
    """The licences of the kit's crates that the program uses."""
    guides = kit_folder() / "rattle"
    for crate in kit_crates(crates_below(PROGRAM)[1]):
        for file in sorted(guides.glob(f"{crate}/LICENSE*")):
            yield f"licenses/{crate}/{file.name}", False, file.read_bytes()


def library_files():
    """The C library and its header, where the crate below it is built."""
    library = static_library()
    if not library or not library.is_file():
        return
    with tempfile.TemporaryDirectory(prefix="jichurpa-library-") as place:
        told = subprocess.run([BINDINGS / "c" / "build", place], stdout=subprocess.PIPE, stderr=subprocess.STDOUT, text=True, check=False)
        if told.returncode:
            raise BuildError(f"bindings/c/build ended with status {told.returncode}: {told.stdout.strip()}")
        for name, target in IN_LIB.items():
            yield target, False, pathlib.Path(place, name).read_bytes()


def needed_glibc(program):
    """The version of the GNU C library that a program needs at least, by the versions of the symbols that it names."""
    found = {(int(major), int(minor)) for major, minor in re.findall(rb"GLIBC_(\d+)\.(\d+)", program)}
    return "{}.{}".format(*max(found)) if found else None


def about(version, trial, program):
    """The text of the file RELEASE."""
    glibc = needed_glibc(program)
    lines = [
        f"version  {version}{' (trial)' if trial else ''}",
        f"commit   {git('rev-parse', 'HEAD').decode().strip()}{' and changes' if git('status', '--porcelain') else ''}",
        f"kit      {kit_identity()}",
        f"system   Linux on x86-64{f', GNU C library {glibc} or later' if glibc else ''}",
        "tools    tools/look needs Python 3.10 or later",
    ]
    return "\n".join(lines).encode() + b"\n"


def all_files(version, program, trial):
    """Every file of the release but the checksums."""
    yield IN_BIN, True, program
    yield from library_files()
    yield from licences()
    yield "RELEASE", False, about(version, trial, program)
    yield from tracked_files(trial)


def links(files):
    """A link from where the gate builds the program, since tools look for it there."""
    if IN_BIN in {name for name, _, _ in files}:
        place = BUILT.relative_to(TOP)
        yield str(place), os.path.relpath(IN_BIN, place.parent)


def entries(head, files):
    """The entries of the tarball: the files, their checksums, and the links."""
    sums = "".join(f"{hashlib.sha256(content).hexdigest()}  {name}\n" for name, _, content in sorted(files))
    for name, may_run, content in [*sorted(files), ("SHA256SUMS", False, sums.encode())]:
        entry = tarfile.TarInfo(f"{head}/{name}")
        entry.size, entry.mode = len(content), 0o755 if may_run else 0o644
        yield entry, io.BytesIO(content)
    for name, target in links(files):
        entry = tarfile.TarInfo(f"{head}/{name}")
        entry.type, entry.mode, entry.linkname = tarfile.SYMTYPE, 0o777, target
        yield entry, None


def packed(head, files, seconds):
    """The tarball's bytes. Its times are those of the commit, and its owner is nobody in particular."""
    whole = io.BytesIO()
    with gzip.GzipFile(fileobj=whole, mode="wb", filename="", mtime=0) as outer, tarfile.open(fileobj=outer, mode="w", format=tarfile.GNU_FORMAT) as tar:
        for entry, content in entries(head, files):
            entry.mtime = seconds
            tar.addfile(entry, content)
    return whole.getvalue()


def make(folder, program, trial):
    """Makes and tries the release, and tells in lines what was done. The tarball is put in its place when all trials passed."""
    version = told_version(program)
    check_versions(TOP, version)
    files = list(all_files(version, pathlib.Path(program).read_bytes(), trial))
    head = f"jichurpa-{version}{'-trial' if trial else ''}"
    content = packed(head, files, int(git("log", "-1", "--format=%ct")))
    with tempfile.TemporaryDirectory(prefix="jichurpa-release-") as place:
        unpack(content, place)
        yield from trials(pathlib.Path(place, head))
    folder, name = pathlib.Path(folder), f"{head}-{PLATFORM}.tar.gz"
    folder.mkdir(parents=True, exist_ok=True)
    (folder / name).write_bytes(content)
    (folder / f"{name}.sha256").write_text(f"{hashlib.sha256(content).hexdigest()}  {name}\n", encoding="utf-8")
    yield f"release: {folder / name}, {len(content):,} bytes"
