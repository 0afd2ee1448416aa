"""Finds the Python module of the device, and the C library under it."""
import atexit
import os
import shutil
import subprocess
import sys
import tempfile
from pathlib import Path

TOP = Path(__file__).resolve().parents[2]
ARCHIVE = TOP / "crates" / "device_c" / "out" / "libdevice_c.a"
VARIABLE, SHARED = "JICHURPA_LIBRARY", "libjichurpa.so"


class Missing(Exception):
    """What is missing, in one line."""


def built():
    """A folder that is removed at the end, with the library that bindings/c/build makes of crates/device_c."""
    if not ARCHIVE.is_file():
        raise Missing(f"{ARCHIVE.relative_to(TOP)} was not built")
    folder = tempfile.mkdtemp(prefix="jichurpa-library-")
    atexit.register(shutil.rmtree, folder, ignore_errors=True)
    try:
        ran = subprocess.run([TOP / "bindings" / "c" / "build", folder], stdout=subprocess.PIPE, stderr=subprocess.STDOUT, text=True)
    except OSError as error:
        raise Missing(f"bindings/c/build cannot be started: {error.strerror}") from error
    if ran.returncode:
        raise Missing((ran.stdout.strip().splitlines() or ["bindings/c/build failed"])[-1])
    return folder


def load(folder=None):
    """Makes `jichurpa` importable over the library in a folder: one that is named, that of JICHURPA_LIBRARY, or one built here.

    The folder."""
    if folder is None and os.environ.get(VARIABLE):
        path = Path(os.environ[VARIABLE])
    else:
        path = Path(folder or built(), SHARED)
    if not path.is_file():
        raise Missing(f"there is no {path}")
    os.environ[VARIABLE] = str(path.resolve())
    if (module := str(TOP / "bindings" / "python")) not in sys.path:
        sys.path.insert(0, module)
    return path.parent
