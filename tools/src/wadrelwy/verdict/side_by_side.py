"""The cells of a table held against the machine side by side, pair by pair: that of which fewest values were tried goes on first, so a stop leaves
each with about as many; and what was compared is kept as it is (stretches.py)."""
import heapq
import sys
import time
from concurrent.futures import FIRST_COMPLETED, Future, ThreadPoolExecutor, wait
from typing import IO, Callable, Iterator, NamedTuple, Optional, Sequence

from wadrelwy.sweep.running import clear, tell

from .stretches import EQUAL, Cell, Known, Record, Stretch, unequal

Pair = tuple[bytes, bytes]


class Question(NamedTuple):
    """A cell whose pairs are compared: its name; the image's own secret, and the values that are tried; whether something shows, so that each value
    is compared with the image's own; whether a value publishes what the own does; the first cycle in which the traces of two are unequal; and which
    simulator says so."""
    name: str
    cell: Cell
    own: bytes
    values: Sequence[bytes]
    is_shown: bool
    publishes_the_same: Callable[[bytes], bool]
    unequal: Callable[[Pair], Optional[int]]
    simulator_sha256: str


class Going:
    """A cell as far as it is: what was known before, and what this call has compared. `waiting` is a value that publishes the same, and has no
    partner yet."""

    def __init__(self, question: Question, before: Known) -> None:
        self.question, self.before = question, before
        self.tried, self.compared, self.pairs = before.tried, before.compared, before.pairs
        self.waiting: list[int] = []
        self.result = EQUAL

    @property
    def is_over(self) -> bool:
        return bool(self.before.unequal) or self.result != EQUAL or not self.waiting and self.tried >= len(self.question.values)

    @property
    def left(self) -> int:
        """How many values are still to be tried."""
        return 0 if self.is_over else len(self.question.values) - self.tried + len(self.waiting)

    def advance(self) -> None:
        """Looks at as many values as a pair lacks, and compares the pair if it is one then."""
        asked = self.question
        with_own = asked.is_shown or not self.compared
        wanted = (1 if with_own else 2) - len(self.waiting)
        for value in asked.values[self.tried:self.tried + wanted]:
            if asked.publishes_the_same(value):
                self.waiting.append(self.tried)
            self.tried += 1
        two = [asked.values[at] for at in self.waiting]
        if two and with_own:
            self.compare((asked.own, two[0]))
        elif len(two) == 2:
            self.compare((two[0], two[1]))
        elif two and self.tried >= len(asked.values):
            self.compare((two[0], asked.own))

    def compare(self, pair: Pair) -> None:
        cycle = self.question.unequal(pair)
        self.compared, self.pairs, self.waiting = self.compared + len(self.waiting), self.pairs + 1, []
        if cycle is not None:
            self.result = unequal(cycle, *pair)

    def stretch(self) -> Optional[Stretch]:
        """What this call has compared so far, to be kept; none where it is nothing. A value without a partner is tried again."""
        last, before, asked = self.waiting[0] if self.waiting else self.tried, self.before, self.question
        if last <= before.tried:
            return None
        return Stretch(asked.name, asked.cell, before.pairs + 1, self.pairs, before.tried + 1, last, self.compared - before.compared,
                       asked.simulator_sha256, self.result)


def ended(begun: Sequence[Going], jobs: int, record: Record, screen: IO[str] = sys.stderr) -> Iterator[Going]:
    """Takes these cells to their ends, so many pairs at a time, and keeps each pair; answers each cell as soon as it is through."""
    yield from (each for each in begun if each.is_over)
    queue = [(each.tried, number) for number, each in enumerate(begun) if not each.is_over]
    heapq.heapify(queue)
    running: dict[Future[None], int] = {}
    of, start = sum(each.left for each in begun), time.monotonic()
    try:
        with ThreadPoolExecutor(jobs) as pool:
            while queue or running:
                while queue and len(running) < jobs:
                    number = heapq.heappop(queue)[1]
                    running[pool.submit(begun[number].advance)] = number
                for job in wait(running, return_when=FIRST_COMPLETED).done:
                    job.result()
                    number = running.pop(job)
                    keep(begun[number], record)
                    if not begun[number].is_over:
                        heapq.heappush(queue, (begun[number].tried, number))
                        continue
                    clear(screen)
                    yield begun[number]
                tell_rest(of, sum(each.left for each in begun), start, screen)
    finally:
        # where it is stopped, what went on has ended
        for number in running.values():
            keep(begun[number], record)
        clear(screen)


def tell_rest(of: int, left: int, start: float, screen: IO[str]) -> None:
    """How many values are through, where that is a terminal."""
    if left < of:
        tell(screen, "values", of - left, of, time.monotonic() - start)


def keep(each: Going, record: Record) -> None:
    """What this call has compared of a cell goes into the record."""
    stretch = each.stretch()
    if stretch is not None:
        record.keep(stretch)
