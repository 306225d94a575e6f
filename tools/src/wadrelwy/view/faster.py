"""What goes over long traces faster, and answers the same: compiled modules where `tools/compile` has made them."""
import hashlib
import importlib
import os
import sys
from typing import IO, Sequence

# a trace of so many bytes is long
LARGE, LARGE_PACKED = 20_000_000, 4_000_000

PACKAGE = os.path.dirname(os.path.dirname(os.path.realpath(__file__)))
# the modules that are compiled, by package; each has its types beside it
COMPILED = {"view": ("checks", "counts", "front_end", "items", "memory_side", "pipeline", "reasons", "replay", "rows", "slots", "trace"),
            "riscv": ("arithmetic",), "verdict": ("hart", "telling", "values")}
FOLDER, STAMP = os.path.join(PACKAGE, "compiled"), "stamp"


def stamp() -> str:
    """What the compiled modules are made of: the Python, and the texts of the sources."""
    found = hashlib.sha256(sys.version.encode())
    for path in [os.path.join(PACKAGE, package, name) for package, names in COMPILED.items() for name in names]:
        for ending in (".py", ".pxd"):
            with open(path + ending, "rb") as file:
                found.update(file.read())
    return found.hexdigest()


def by_compiled(words: Sequence[str], folder: str = FOLDER) -> bool:
    """Takes the compiled modules where they are those of these sources, and answers whether it does. Not where the state of a run is
    written or read: an index has the plain ones' values."""
    if words[:1] == ["index"] or from_index(words) or sys.implementation.name != "cpython":
        return False
    try:
        with open(os.path.join(folder, STAMP), encoding="ascii") as file:
            if file.read() != stamp():
                return False
    except (OSError, ValueError):
        return False
    for package in COMPILED:
        importlib.import_module(f"wadrelwy.{package}").__path__.insert(0, os.path.join(folder, package))
    return True


def from_index(words: Sequence[str]) -> bool:
    """Whether the command begins within a trace by its index."""
    return any(os.path.isfile(word + ".index") for word in words) and any(word.startswith("--from") for word in words)


def is_large(name: str) -> bool:
    """Whether this is the file of a long trace."""
    try:
        return os.path.isfile(name) and os.path.getsize(name) > (LARGE_PACKED if name.endswith(".gz") else LARGE)
    except OSError:
        return False


def advise(words: Sequence[str], screen: IO[str] = sys.stderr) -> None:
    """Says on a terminal what makes long traces faster, where a word names one."""
    if screen.isatty() and not from_index(words) and any(map(is_large, words)):
        print('wadrelwy view: a long trace; `tools/compile` makes this some times as fast (docs/view.md, "Long traces")', file=screen)
