"""A ladder as text for Mermaid, which code hosts draw, and for mscgen, which draws SVG."""
import shutil
import subprocess
import tempfile
from pathlib import Path

from .errors import LookError, warn
from .ladder import DOTTED, LOST, OPEN, SOLID, Ladder, Note

MERMAID_ARROWS = {SOLID: "->>", DOTTED: "-->>", LOST: "-x", OPEN: "--)"}
MSCGEN_ARROWS = {SOLID: "=>", DOTTED: ">>", LOST: "-x", OPEN: "->"}
TOOL, PACKAGE = "mscgen", "mscgen"
# A step is some 28 points tall, so a page is no taller than some 6,000: viewers refuse pictures of more than 32,767.
MOST_STEPS = 200


def lifelines(ladder):
    """The short name of each lifeline in a drawing."""
    return {place: f"p{number}" for number, place in enumerate(ladder.places, 1)}


def mermaid(ladder):
    """The lines of a Mermaid sequence diagram."""
    names, lines = lifelines(ladder), ["sequenceDiagram"]
    for device, address in ladder.devices.items():
        lines.append(f"    box transparent device {device}, {address}")
        lines += [f"    participant {names[p]} as context {p.context}" for p in ladder.places if p.device == device]
        lines.append("    end")
    for step in ladder.steps:
        if isinstance(step, Note):
            over = ordered(ladder, step.places)
            lines.append(f"    Note over {','.join(names[p] for p in over)}: {step.text}")
        else:
            lines.append(f"    {names[step.start]}{MERMAID_ARROWS[step.style]}{names[step.end]}: {step.text}")
    return lines


def ordered(ladder, places):
    """Lifelines from left to right, each once."""
    return sorted(set(places), key=ladder.places.index)


def pages_of(ladder):
    """The ladder in pieces that are no taller than a page."""
    steps = ladder.steps
    return [Ladder(ladder.devices, ladder.places, steps[at:at + MOST_STEPS]) for at in range(0, max(1, len(steps)), MOST_STEPS)]


def mscgen(ladder, page=""):
    """The lines of a message sequence chart for mscgen, with a line that tells the page."""
    names = lifelines(ladder)
    heads = [f'{names[p]} [label="context {p.context}\\ndevice {p.device}\\n{ladder.devices[p.device]}"]' for p in ladder.places]
    lines = ["msc {", f'    width="{max(2, len(heads)) * 380}";', "    " + ",\n    ".join(heads) + ";"]
    lines += [f'    --- [label="{page}"];'] if page else []
    for step in ladder.steps:
        if isinstance(step, Note):
            over = ordered(ladder, step.places)
            lines.append(f'    {names[over[0]]} note {names[over[-1]]} [label="{step.text}"];')
        else:
            lines.append(f'    {names[step.start]}{MSCGEN_ARROWS[step.style]}{names[step.end]} [label="{step.text}"];')
    return [*lines, "}"]


def write_svg(ladder, path):
    """Draws the ladder as SVG by mscgen, on pages where it is tall: the second one of ladder.svg is ladder-2.svg."""
    if shutil.which(TOOL) is None:
        raise LookError(f"--svg needs {TOOL}, which is not on the path (Debian package {PACKAGE})")
    if not ladder.places:
        raise LookError("--svg: the script has no connection, so there is nothing to draw")
    pages, path = pages_of(ladder), Path(path)
    names = [path] + [path.with_name(f"{path.stem}-{number}{path.suffix}") for number in range(2, len(pages) + 1)]
    for number, (page, name) in enumerate(zip(pages, names), 1):
        draw_page(page, f"page {number} of {len(pages)}" if len(pages) > 1 else "", name)
    if len(pages) > 1:
        others = names[1] if len(pages) == 2 else f"{names[1]} to {names[-1]}"
        warn(f"the ladder has {len(ladder.steps):,} steps, so it is cut into {len(pages)} pages: {names[0]}, {others}")


def draw_page(ladder, told, path):
    """Draws one page into a file."""
    with tempfile.TemporaryDirectory() as folder:
        source, drawn = Path(folder) / "ladder.msc", Path(folder) / "ladder.svg"
        source.write_text("\n".join(mscgen(ladder, told)) + "\n", encoding="ascii")
        ended = subprocess.run([TOOL, "-T", "svg", "-i", str(source), "-o", str(drawn)], capture_output=True, text=True, check=False)
        if ended.returncode or not drawn.is_file():
            raise LookError(f"{TOOL} ended with status {ended.returncode}: {ended.stderr.strip().splitlines()[-1:] or ['no word']}")
        try:
            path.write_bytes(drawn.read_bytes())
        except OSError as fault:
            raise LookError(f"{path}: {fault.strerror}") from None
