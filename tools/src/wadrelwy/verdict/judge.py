"""A case for a verdict: two images, run and looked at."""
from typing import Any, Optional, TYPE_CHECKING

from wadrelwy.view.description import read_description
from wadrelwy.view.trace import Progress, Trace

from . import secrecy, simulator
from .loaded import load
from .premises import premises
from .report import Case
from .telling import Telling

if TYPE_CHECKING:
    from wadrelwy.verdict.loaded import Loaded
    from wadrelwy.verdict.simulator import Pair
    from wadrelwy.view.description import Description


class Reading(Progress):
    """How much of a trace is read, of so many cycles, on standard error if that is a terminal."""

    EVERY = 1000

    def __init__(self, lines: Any, cycles: int) -> None:
        super().__init__(lines)
        self.cycles = cycles

    def share(self) -> str:
        return f" of {self.cycles}"


def case_of(program: str, description: str, one: str, two: str, cycles: int, secrets: Optional[str] = None) -> Case:
    """Two images under a description, by the names of their files, for so many cycles at most. `secrets`
    is the program that is asked of the bytes that differ, if there is one."""
    pair = simulator.compare(program, description, one, two, cycles)
    machine = read_description(description)
    case = judged(description, machine, load(one, machine), load(two, machine), pair)
    return case._replace(asked=secrecy.asked_of_pair(secrets, description, case.one, case.premises, cycles))


def judged(description: str, machine: "Description", one: "Loaded", two: "Loaded", pair: "Pair") -> "Case":
    """What follows from a pair of traces, and how they compare."""
    end = pair.ends[0]
    found = premises(one, two, machine, end.retired)
    telling = Telling(Trace(Reading(pair.one, end.cycles)), one, machine, found.memory, thorough=False)
    return Case(description, machine, one, two, pair, found, telling)
