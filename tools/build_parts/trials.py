"""Trying a release that was unpacked: its checksums, its program in a bare root, its tools and its library."""
import os
import pathlib
import re
import shutil
import subprocess
import tempfile

from .sources import BuildError

# The environment of a trial: no variable but where the system's own programs are.
EMPTY = {"PATH": "/usr/bin:/bin"}
FOLDERS = ["examples", "examples/tour", "examples/large"]


def run(words, **how):
    """The status and the output of a command."""
    ended = subprocess.run(words, stdout=subprocess.PIPE, stderr=subprocess.PIPE, check=False, **how)
    return ended.returncode, ended.stdout, ended.stderr


def unpack(content, place):
    """Unpacks a tarball into a folder, by the system's tar."""
    status, _, said = run(["tar", "-xzf", "-"], input=content, cwd=place, env=EMPTY)
    if status:
        raise BuildError(f"the tarball cannot be unpacked: {said.decode(errors='replace').strip()}")


def check_sums(top):
    """Refuses a release with a file whose checksum is wrong."""
    status, told, said = run(["sha256sum", "--check", "--quiet", "--strict", "SHA256SUMS"], cwd=top, env=EMPTY)
    if status:
        raise BuildError(f"the checksums of the unpacked release are wrong: {(told + said).decode(errors='replace').strip()}")


def libraries_of(program):
    """The files that the system's loader needs for a program: the loader itself and the shared libraries. None for a static program."""
    told = run(["ldd", program], env=EMPTY)[1]
    return [word for line in told.decode().splitlines() if "=>" in line or "ld-linux" in line for word in line.split() if word.startswith("/")]


def make_root(place, top):
    """A root with the release's program and what it needs of the system, and nothing else."""
    root = pathlib.Path(place, "root")
    for library in libraries_of(top / "bin" / "jichurpa"):
        target = root / library.lstrip("/")
        target.parent.mkdir(parents=True, exist_ok=True)
        shutil.copy(os.path.realpath(library), target)
    shutil.copytree(top / "bin", root / "release" / "bin")
    # A command that changes the root begins in its uppermost folder, and there the program looks for the depot.
    shutil.copytree(top / "examples" / "depot", root / "depot")
    return root


def enter(root):
    """The words before a command that runs it in that root, or None where one may not change the root."""
    chroot, unshare = (shutil.which(it, path=f"{EMPTY['PATH']}:/usr/sbin:/sbin") for it in ("chroot", "unshare"))
    for words in ([chroot, root], [unshare, "--map-root-user", chroot, root]):
        if None not in words and run([*words, "/release/bin/jichurpa", "--version"], env={})[0] == 0:
            return words
    return None


def runs_of(folder):
    """The runs of a folder of examples: their name, words, input, wanted output and wanted status."""
    for expected in sorted(folder.glob("*.expected")):
        def content(ending, otherwise, expected=expected):
            file = expected.with_suffix(ending)
            return file.read_bytes() if file.is_file() else otherwise
        words = content(".words", b"play").decode().splitlines()
        yield expected.stem, words, content(".script", b""), expected.read_bytes(), int(content(".status", b"0"))


def play_all(top, before, path):
    """Plays all examples by the words before the program's path, in the folder of each; tells how many there are."""
    played = 0
    for name in FOLDERS:
        for run_name, words, script, wanted, status in runs_of(top / name):
            ended = run([*before, path, *words], input=script, env={}, cwd=top / name)
            if ended[:2] != (status, wanted):
                raise BuildError(f"{name}/{run_name}: the program ended with status {ended[0]}, or its answers differ")
            played += 1
    return played


def try_program(top):
    """Plays the examples in a bare root, or with an empty environment."""
    with tempfile.TemporaryDirectory(prefix="jichurpa-root-") as place:
        before = enter(make_root(place, top))
        if before:
            return f"release: {play_all(top, before, '/release/bin/jichurpa')} examples are as expected in a bare root"
    played = play_all(top, [], str(top / "bin" / "jichurpa"))
    return f"release: {played} examples are as expected with an empty environment; a bare root is left out, since none may be entered here"


def try_look(top):
    """Looks at an example with the release's tools and program."""
    recent = [shutil.which("python3", path=EMPTY["PATH"]) or "", "-c", "import sys; sys.exit(sys.version_info < (3, 10))"]
    if not recent[0] or run(recent, env=EMPTY)[0]:
        return f"release: tools/look is left out, since there is no python3 of version 3.10 or later in {EMPTY['PATH']}"
    status, shown, said = run(["tools/look", "--program", "bin/jichurpa", "side", "examples/hello.script"], cwd=top, env=EMPTY)
    answers = (top / "examples" / "hello.expected").read_text(encoding="utf-8").splitlines()
    shown = [line for line in shown.decode().splitlines() if not line.split("  ")[1].startswith("#")]
    if status or len(shown) != len(answers) or not all(line.endswith(f"  {answer}") for line, answer in zip(shown, answers)):
        raise BuildError(f"tools/look side ended with status {status}, or its answers differ: {said.decode(errors='replace').strip()}")
    return "release: tools/look shows an example"


def try_install(top):
    """Installs the release, and asks what is installed for its version."""
    with tempfile.TemporaryDirectory(prefix="jichurpa-prefix-") as prefix:
        status, _, said = run(["tools/install", prefix], cwd=top, env=EMPTY)
        if status:
            raise BuildError(f"tools/install ended with status {status}: {said.decode(errors='replace').strip()}")
        if run([f"{prefix}/bin/jichurpa", "--version"], env={})[:2] != run([top / "bin" / "jichurpa", "--version"], env={})[:2]:
            raise BuildError("what tools/install installs tells another version")
        if (top / "lib").is_dir():
            try_install_library(top, prefix)
    return "release: tools/install installs it"


def try_install_library(top, prefix):
    """Installs the library of the release, and compares it."""
    status, _, said = run(["tools/install", prefix, "--library"], cwd=top, env=EMPTY)
    if status:
        raise BuildError(f"tools/install --library ended with status {status}: {said.decode(errors='replace').strip()}")
    for file in (*(top / "lib").iterdir(), *(top / "include").iterdir()):
        if pathlib.Path(prefix, file.relative_to(top)).read_bytes() != file.read_bytes():
            raise BuildError(f"tools/install --library installs another {file.name}")


def calls_of(top, library):
    """The names that the headers have and the library defines, as `nm` lists them."""
    defined = {line.split()[-1] for line in run(["nm", "-g", "--defined-only", library], env=EMPTY)[1].decode().splitlines() if " T " in line}
    return sorted(defined & {word for it in (top / "include").glob("*.h") for word in re.findall(r"\w+", it.read_text(encoding="utf-8"))})


def try_library(top):
    """Compiles and runs a C program that names each call of the headers, so that all of them have to be in the library."""
    library = top / "lib" / "libjichurpa.a"
    compiler = shutil.which("cc", path=EMPTY["PATH"])
    if not library.is_file():
        return "release: a C library is left out, since none was built"
    if not compiler or not shutil.which("nm", path=EMPTY["PATH"]):
        return f"release: a C program over the library is left out, since there is no cc or no nm in {EMPTY['PATH']}"
    calls = calls_of(top, library)
    if not calls:
        raise BuildError("the library defines no call of its headers")
    with tempfile.TemporaryDirectory(prefix="jichurpa-c-") as place:
        headers = "".join(f"#include <{it.name}>\n" for it in sorted((top / "include").glob("*.h")))
        table = ", ".join(f"(call){it}" for it in calls)
        everything = f"{headers}typedef void (*call)(void);\nstatic call calls[] = {{{table}}};\nint main(void) {{ return calls[0] == 0; }}\n"
        run_in_c(top, compiler, pathlib.Path(place, "all.c"), everything)
        for example in sorted((top / "bindings" / "c").glob("*.expected")):
            written = run_in_c(top, compiler, pathlib.Path(place, f"{example.stem}.c"), example.with_suffix(".c").read_text(encoding="utf-8"))
            if written != example.read_bytes():
                raise BuildError(f"bindings/c/{example.stem}.c writes something else over the library")
    return f"release: a C program with the {len(calls)} calls of the library runs"


def run_in_c(top, compiler, source, text):
    """Compiles a C program over the release's library, and gives what it writes."""
    source.write_text(text, encoding="utf-8")
    built = source.with_suffix("")
    words = [compiler, "-std=c11", "-Wall", "-Werror", "-o", built, source, f"-I{top}/include", top / "lib" / "libjichurpa.a", "-lpthread", "-lm"]
    status, _, said = run(words, env=EMPTY)
    ended = run([built], env={}) if not status else (status, b"", b"")
    if ended[0]:
        raise BuildError(f"a C program over the library is not built, or does not run: {said.decode(errors='replace').strip()}")
    return ended[1]


def trials(top):
    """Tries an unpacked release, and tells in a line what each trial did."""
    check_sums(top)
    yield "release: the checksums of all files are right"
    for trial in (try_program, try_look, try_install, try_library):
        yield trial(top)
