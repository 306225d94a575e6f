"""The built programs, which the tools ask, and where they are looked for."""
import os
from typing import Iterator, Optional

from wadrelwy import Fault

ROOT = os.path.dirname(os.path.dirname(os.path.dirname(os.path.dirname(os.path.realpath(__file__)))))
# whether the package stands in a tree of the project; an installed one doesn't
IN_TREE = os.path.isfile(os.path.join(ROOT, "tools", "pyproject.toml"))
SIMULATOR, SECRETS, STATS = PROGRAMS = "stt_cli", "stt_secrets", "stt_stats"
BUILD = {SIMULATOR: 'docs/using.md, "Before you start"', SECRETS: 'docs/secrets.md, "Before you ask"', STATS: 'docs/using.md, "Count a run"'}


# the line that a program without proofs writes first to standard error (tools/try), and what its name has
UNPROVED = "unproved"


# what the C library is told, if it is glibc: memory comes in large pages, where the system has them for who asks, and what is smaller than 32 MiB comes
# from one heap, of which that much is kept. A program takes several bytes for each one that an image spans, which is all of RAM where a stack stands at
# its end: handed out page by page, that takes longer than all else before the first step
LARGE_PAGES = {"GLIBC_TUNABLES": "glibc.malloc.hugetlb=1:glibc.malloc.mmap_threshold=33554432:glibc.malloc.trim_threshold=33554432"}


def with_large_pages() -> dict[str, str]:
    """The environment of a run that has its memory in large pages, where nothing else is told to the C library."""
    return LARGE_PAGES | os.environ


def is_unproved(program: str) -> bool:
    """Whether a program says by its name that nothing about it is proved."""
    return UNPROVED in os.path.basename(os.path.realpath(program))


def told_name(program: str) -> str:
    """A program's name as a table cites it: by whichever link it is named, an unproved one is told as such."""
    name = os.path.basename(program)
    return f"{name}, {UNPROVED}," if is_unproved(program) and UNPROVED not in name else name


def refuse_unproved(program: str) -> None:
    """Refuses an unproved program, where what is said of its answers rests on proofs."""
    if is_unproved(program):
        raise Fault(f"{program} is unproved, and what this command says rests on proofs; run, trace, stats, view, sweep and sample take it")


def note_of(said: str) -> str:
    """The note among what a program wrote to standard error: its first line, but that which says that it is unproved."""
    return next((line for line in said.strip().split("\n") if not line.startswith(UNPROVED + ":")), "")


def beside(name: str, other: str) -> Iterator[str]:
    """Where a program may stand beside another one: in its folder, or where a tree builds each in a folder of its own."""
    yield os.path.join(os.path.dirname(other), name)
    crate = os.path.dirname(os.path.dirname(other))
    if os.path.basename(crate) in PROGRAMS:
        yield os.path.join(os.path.dirname(crate), name, "out", name)


def places(name: str, named: Optional[str]) -> Iterator[str]:
    """Where a program is looked for: the one that is named alone; else that of its variable (STT_CLI, STT_SECRETS, STT_STATS) alone; else
    beside those of the others' variables, and the built one of the tree that this package is of."""
    if named or os.environ.get(name.upper()):
        yield named or os.environ[name.upper()]
        return
    for other in filter(None, (os.environ.get(each.upper()) for each in PROGRAMS if each != name)):
        yield from beside(name, os.path.abspath(other))
    if IN_TREE:
        yield os.path.join(ROOT, "crates", name, "out", name)


def program(name: str, named: Optional[str] = None) -> Optional[str]:
    """The program of this name, in the first place that has it; none where none has."""
    return next((path for path in places(name, named) if os.path.isfile(path) and os.access(path, os.X_OK)), None)


def said(name: str, named: Optional[str] = None) -> Optional[str]:
    """The program that the words or the variable name; none where neither does, and so whichever is there will do."""
    return program(name, named) if named or os.environ.get(name.upper()) else None


def simulator(named: Optional[str] = None) -> Optional[str]:
    """The simulator: `program` of stt_cli."""
    return program(SIMULATOR, named)


def secrets(named: Optional[str] = None) -> Optional[str]:
    """What looks for secrets: `program` of stt_secrets."""
    return program(SECRETS, named)


def counting(simulator_named: Optional[str] = None, named: Optional[str] = None) -> Optional[str]:
    """What counts the events of a run: `program` of stt_stats. Where the words or the variable name a simulator, and neither names this one, it
    is the one beside that simulator alone, since another may be of another build."""
    of = simulator_named or os.environ.get(SIMULATOR.upper())
    if of and not named and not os.environ.get(STATS.upper()):
        there = beside(STATS, os.path.abspath(of))
        return next((path for path in there if os.path.isfile(path) and os.access(path, os.X_OK)), None)
    return program(STATS, named)


def needed(name: str, named: Optional[str] = None) -> str:
    """The program of this name; a refusal where there is none, with the places where it was looked for."""
    found = program(name, named)
    if found is None:
        looked = " or ".join(places(name, named))
        raise Fault(f"no program {name}{f' at {looked}' if looked else ''}: build it ({BUILD[name]}), or name it by --program or {name.upper()}")
    return found
