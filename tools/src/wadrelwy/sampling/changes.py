"""Where a run changes its level and keeps it, as from one phase to the next. Two windows beside each other are unlike there, and those before and
those behind are alike: in which of the two parts the change comes, and where, decides how much each level counts. So further windows are measured
between the two, each in the middle of what is left, until it is known to some lengths of a window."""
from typing import Iterator, NamedTuple, Sequence

from .measuring import Taken

# windows on each side that have to be alike, and by how much more the sides are unlike
SIDE, FEWEST, UNLIKE = 3, 2, 4
# a step counts whose square is at least the so-manieth part of all squares together
COUNTS = 100
# so many windows are measured for a change, and none once it is known to so many lengths
MOST, LENGTHS = 6, 2


class At(NamedTuple):
    """A window that begins after so many instructions, and what it took."""
    begin: int
    taken: Taken


class Change(NamedTuple):
    """A change behind the window `number` and before the one behind it, of which the further windows have left `low` to `high`; `first` is
    what was there without them, and `further` how many there are."""
    number: int
    low: int
    high: int
    first: int
    further: int

    @property
    def place(self) -> float:
        return (self.low + self.high) / 2

    @property
    def is_found(self) -> bool:
        """Whether so much more is known of its place that it counts."""
        return self.high - self.low <= self.first / 4

    def is_wanted(self, length: int) -> bool:
        """Whether a further window is to be measured."""
        return self.high - self.low > LENGTHS * length and self.further < MOST

    def next(self, length: int) -> int:
        """Where the further window begins."""
        return (self.low + self.high - length) // 2


def levels(values: Sequence[float]) -> Iterator[int]:
    """The windows behind which the run changes its level."""
    steps = [after - before for before, after in zip(values, values[1:])]
    squares = sum(step ** 2 for step in steps)
    for at, step in enumerate(steps):
        before, after = values[max(at + 1 - SIDE, 0):at + 1], values[at + 1:at + 1 + SIDE]
        alike = max(max(side) - min(side) for side in (before, after))
        if min(len(before), len(after)) >= FEWEST and abs(step) > UNLIKE * alike and COUNTS * step ** 2 >= squares:
            yield at


def narrowed(number: int, before: At, after: At, further: Sequence[At], length: int) -> Change:
    """A change between two windows, by the further ones between them. One that is like neither has it within itself."""
    low, high, levels_of = before.begin + length, after.begin, (before.taken.each, after.taken.each)
    first, near = high - low, abs(levels_of[1] - levels_of[0]) / UNLIKE
    for each in further:
        if abs(each.taken.each - levels_of[0]) <= near:
            low = max(low, each.begin + length)
        elif abs(each.taken.each - levels_of[1]) <= near:
            high = min(high, each.begin)
        else:
            low, high = max(low, each.begin), min(high, each.begin + length)
    return Change(number, low, max(low, high), first, len(further))


def changes(windows: Sequence[At], further: Sequence[At], length: int) -> list[Change]:
    """The changes of a run, by its windows in their order and by further ones."""
    found = []
    for at in levels([window.taken.each for window in windows]):
        before, after = windows[at], windows[at + 1]
        between = [each for each in further if before.begin < each.begin < after.begin]
        if after.begin > before.begin + length:
            found.append(narrowed(at, before, after, between, length))
    return found
