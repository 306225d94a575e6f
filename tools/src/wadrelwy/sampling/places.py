"""Which windows of a run are measured."""
import random
from typing import Iterator, NamedTuple

from wadrelwy import Fault

FEWEST = 10
# of so many windows the warm-up is so many times as long, too, to see what the cold start adds
LONGER, TIMES = 25, 4


class Window(NamedTuple):
    """The window of the part `number` of a run: it begins after `begin` instructions, behind `warm` of warm-up. `longer` says that the warm-up
    is longer than what was asked for."""
    number: int
    begin: int
    warm: int
    longer: bool

    @property
    def start(self) -> int:
        """How many instructions stand before the warm-up."""
        return self.begin - self.warm


def windows(steps: int, count: int, length: int, warm: int, seed: int) -> list[Window]:
    """One window in each of `count` equal parts of a run of so many instructions, at a place of the part by chance: places at one distance
    would all meet the same moment of a loop that has it as its period. Before the run's begin nothing is warmed, nor cold."""
    if count < FEWEST or length < 1 or warm < 0:
        raise Fault(f"--windows is at least {FEWEST}, --length 1 and --warm 0")
    if count * length > steps:
        raise Fault(f"{count} windows of {length} are more than the run's {steps} instructions: `wadrelwy run` takes the whole of it")
    chance = random.Random(seed)
    begins = [at * steps // count + chance.randint(0, steps // count - length) for at in range(count)]
    return [Window(at, begin, min(warm, begin), False) for at, begin in enumerate(begins)]


def longer(whole: list[Window]) -> Iterator[Window]:
    """Some of these windows, evenly over the run, with a longer warm-up; those that have all of the run before them are as warm as can be."""
    able = [window for window in whole if window.start > 0 and window.warm > 0]
    for at in range(min(LONGER, len(able))):
        window = able[(2 * at + 1) * len(able) // (2 * min(LONGER, len(able)))]
        yield window._replace(warm=min(TIMES * window.warm, window.begin), longer=True)
