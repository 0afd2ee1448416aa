"""Reads crates.txt and the crates: what each is for, its public functions with their clauses, and its definitions.

It goes by how `rt fmt` lays files out: items at the left edge, methods four spaces in, one clause to a line.
"""
import functools
import re
from dataclasses import dataclass, field
from pathlib import Path

HEAD = re.compile(r"^( *)(pub (?:const )?)?fn (\w+)")
OWNER = re.compile(r"^(?:pub(?:\([^)]*\))? )?(impl|trait)\b(.*)")
ITEM = re.compile(r"^pub (?:struct|enum|trait) (\w+)")
CLAUSE = re.compile(r"^ +(ensures|requires)(?: (\w+))? \{")
MODULE = re.compile(r"^(pub )?mod (\w+);")
DECLARED = re.compile(r"^((?:(?:abbrev|unfoldable|opaque|pub|record|data) )+)([^\s(:]+)")
SENTENCE_END = re.compile(r"(?<![.])[.!?](?=\s|$)")
IMPORT = re.compile(r"^\s*(?:ghost )?use Rattle\.(\w+)\.specs\.([\w.]+?)(?:\.\{([^}]*)\}| as (\w+))\s*;?\s*$")


@dataclass
class Function:
    """A public function or method, with what its contract promises."""

    name: str
    path: Path
    line: int
    sentence: str
    labels: list = field(default_factory=list)
    unnamed: int = 0
    law: bool = False
    trait: str = ""  # of a method that implements one

    @property
    def promises(self):
        """How many clauses say what holds on return."""
        return len(self.labels) + self.unnamed


@dataclass
class Crate:
    """A line of crates.txt, with the comment that stands above it and the lines after that comment."""

    name: str
    layer: str
    needs: list
    folder: Path

    @functools.cached_property
    def sentence(self):
        """What the crate is for: the first sentence of lib.rt."""
        for name in ("lib.rt", "main.rt"):
            path = self.folder / "src" / name
            if path.is_file():
                return first_sentence(line[3:].strip() for line in leading(read_lines(path), "//!"))
        return ""

    @functools.cached_property
    def modules(self):
        """The source files without tests, each with whether its module can be named from outside."""
        found, waiting = {}, []
        for name in ("lib.rt", "main.rt"):
            if (self.folder / "src" / name).is_file():
                waiting.append((self.folder / "src" / name, self.folder / "src", True))
        while waiting:
            path, below, public = waiting.pop()
            found[path] = public
            lines = read_lines(path)
            for place, line in enumerate(lines):
                module = MODULE.match(line)
                inner = module and below / f"{module[2]}.rt"
                if inner and inner.is_file() and "#[cfg(test)]" not in lines[max(0, place - 1)]:
                    waiting.append((inner, below / module[2], public and bool(module[1])))
        return dict(sorted(found.items()))

    @functools.cached_property
    def exported(self):
        """The names that the crate's `pub use` lines hand on, and the types of its public modules."""
        names = set()
        for path, public in self.modules.items():
            items = [ITEM.match(line) for line in read_lines(path)] if public else []
            names.update(item[1] for item in items if item)
            for used in re.findall(r"^pub use ([^;]+);", "\n".join(read_lines(path)), re.MULTILINE):
                names.update(re.findall(r"\w+", used))
        return names

    @functools.cached_property
    def functions(self):
        """The public functions, file by file."""
        return [f for path, public in self.modules.items() for f in functions_of(path, public, self.exported)]

    @functools.cached_property
    def spec_files(self):
        """The files of definitions, in the order of specs/Lib.antt."""
        order = [line.split()[-1] for line in read_lines(self.folder / "specs" / "Lib.antt") if line.startswith("pub mod")]
        paths = [self.folder / "specs" / f"{name}.antt" for name in order]
        return [path for path in paths if path.is_file()]

    def lines_of(self, part, suffix):
        """How many lines the files of a part have."""
        return sum(len(read_lines(path)) for path in (self.folder / part).rglob(f"*{suffix}"))


@functools.lru_cache(maxsize=None)
def read_lines(path):
    """The lines of a file; none where it is not there."""
    return path.read_text(encoding="utf-8").splitlines() if path.is_file() else []


def leading(lines, mark):
    """The lines of a mark with which a file begins."""
    for line in lines:
        if not line.startswith(mark):
            return
        yield line


def first_sentence(lines):
    """The first sentence of a comment: up to a full stop, or to a blank line."""
    text = []
    for line in lines:
        if not line.strip():
            break
        text.append(line.strip())
    joined = " ".join(text)
    end = SENTENCE_END.search(joined)
    while end and re.search(r"\b(?:e\.g|i\.e|vol)\.$", joined[: end.end()]):
        end = SENTENCE_END.search(joined, end.end())
    return joined[: end.end()].rstrip(".") if end else joined


def crates_of(top):
    """The crates of crates.txt, in its order."""
    crates, layer = [], ""
    for line in read_lines(top / "crates.txt"):
        text = line.split("#")[0].strip()
        if not text:
            layer = line.lstrip("# ").strip() if line.startswith("#") else layer
        elif ":" in text:
            head, _, needs = text.partition(":")
            name = head.split()[0]
            crates.append(Crate(name, layer, needs.split(), top / "crates" / name))
    return crates


def owner_of(text):
    """The type of an `impl`, or the name of a trait; and the trait whose methods these are, or ""."""
    kind, rest = OWNER.match(text).groups()
    rest = re.sub(r"\{.*", "", without_angles(rest)).strip()
    trait, _, owner = rest.rpartition(" for ")
    name = re.sub(r"\W.*", "", owner.strip())
    return name, name if kind == "trait" else re.sub(r"\W.*", "", trait)


def without_angles(text):
    """The text without what stands in angle brackets."""
    out, depth = [], 0
    for at, c in enumerate(text):
        depth += c == "<"
        if depth == 0:
            out.append(c)
        depth -= c == ">" and text[at - 1 : at] != "-"
    return "".join(out)


def functions_of(path, public, exported):
    """The public functions of a file: all of a public module, and else those that are handed on."""
    lines, owner, trait = read_lines(path), None, ""
    for place, line in enumerate(lines):
        head = HEAD.match(line)
        if OWNER.match(line):
            owner, trait = owner_of(line)
        elif line == "}":
            owner, trait = None, ""
        elif head and is_open(head, owner, trait) and (public or (owner or head[3]) in exported):
            found = function_at(lines, place, f"{owner}::{head[3]}" if owner else head[3], path)
            found.trait = "" if trait == owner else trait
            if head[2] or found.promises:
                yield found


def is_open(head, owner, trait):
    """Whether a function may be called from outside, by where its head stands."""
    return bool(head[2] or trait) and len(head[1]) == (4 if owner else 0)


def function_at(lines, place, name, path):
    """The function whose head stands in that line."""
    top = place
    while top > 0 and re.match(r"\s*(///|#\[|//)", lines[top - 1]):
        top -= 1
    comment = (line.strip()[3:].strip() for line in lines[top:place] if line.strip().startswith("///"))
    found = Function(name, path, place + 1, first_sentence(comment), law=f"{name.split('::')[-1]}()" in lines[place])
    for line in contract_of(lines, place):
        clause = CLAUSE.match(line)
        if clause and clause[1] == "ensures":
            found.labels += [clause[2]] if clause[2] else []
            found.unnamed += not clause[2]
    return found


def contract_of(lines, place):
    """The lines between the head of a function and its body, or up to the semicolon of a trait's method."""
    indent = re.match(" *", lines[place])[0]
    if lines[place].endswith(("{", "}", ";")):
        return
    for line in lines[place + 1 :]:
        if line in (indent + "{", indent + "{}") or line.startswith(indent + ")") and line.endswith("{"):
            return
        yield line
        if line.endswith(";"):
            return


def declared_in(path):
    """The public definitions of a file of definitions, in their order."""
    found = [DECLARED.match(line) for line in read_lines(path)]
    return [d[2] for d in found if d and "pub" in d[1].split()]


def cited_names(crates):
    """The definitions that contracts cite: (crate, file, name) of what files of code import."""
    cited = set()
    for crate in crates:
        for path in sorted((crate.folder / "src").rglob("*.rt")):
            cited |= cited_in("\n".join(read_lines(path)))
    return cited


def cited_in(text):
    """What one file of code imports of files of definitions."""
    cited = set()
    for line in text.split("\n"):
        found = IMPORT.match(line)
        if not found or "declared" in found[2]:
            continue
        if found[3] is not None:
            names = [part.split(" as ")[0].strip() for part in found[3].split(",")]
        else:
            names = re.findall(rf"\b{found[4]}\.(\w+)", text)
        cited.update((found[1], found[2], name) for name in names)
    return cited
