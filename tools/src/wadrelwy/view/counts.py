"""What is counted over the fetched instructions of a run."""
from collections import Counter

from wadrelwy.riscv.kinds import BRANCH, JALR

from .reasons import DEFENCE, STORE_ADDRESS

RETURN = "return"


def all_hit(written):
    """Whether each line of a store is found in the cache."""
    return all(found == "h" for _, found in written)


class Counts:
    """What is counted over the fetched instructions of a run."""

    def __init__(self):
        self.fetched = self.renamed = self.squashed = self.retired = 0
        self.units, self.wrong = {}, {}
        self.resolved, self.mispredicted = Counter(), Counter()
        self.stores, self.output, self.two_lines = Counter(), 0, 0
        self.held, self.held_cycles, self.held_dropped = Counter(), Counter(), Counter()
        self.cleared, self.passed, self.violated, self.waited = 0, Counter(), Counter(), Counter()

    def add_all(self, items):
        for item in items:
            self.add(item)

    def add(self, item):
        retired = item.retired is not None
        self.fetched += 1
        self.renamed += item.renamed is not None
        self.squashed += item.squashed is not None
        self.retired += retired
        unit = item.unit
        if unit is not None:
            self.units[unit] = self.units.get(unit, 0) + 1
            if not retired:
                self.wrong[unit] = self.wrong.get(unit, 0) + 1
        if item.resolved is not None:
            self.add_resolved(item)
        if item.is_store:
            self.cleared += item.cleared is not None
            if item.written:
                self.stores[all_hit(item.written)] += 1
        elif item.is_load:
            self.add_load(item)
        if item.output is not None:
            self.output += item.output
        if item.waits:
            self.add_held(item)

    def add_resolved(self, item):
        self.resolved[item.kind] += 1
        self.mispredicted[item.kind] += item.mispredicted
        if item.is_return:
            self.resolved[RETURN] += 1
            self.mispredicted[RETURN] += item.mispredicted

    def add_load(self, item):
        self.two_lines += len(item.lines) > 1
        if item.passed:
            self.passed[item.pc] += 1
        if item.violated:
            self.violated[item.pc] += 1
        for wait in item.waits:
            if wait.reason == STORE_ADDRESS:
                self.waited[item.pc] += 1
                break

    @property
    def mispredictions(self):
        return self.mispredicted[BRANCH] + self.mispredicted[JALR]

    @property
    def misses(self):
        """The loads that found a line neither in the first level nor on its way."""
        return self.units.get("miss", 0) + self.units.get("second", 0)

    def add_held(self, item):
        """The cycles in which only the defence kept it from issuing, from being resolved or from being cleared."""
        cycles = 0
        for wait in item.waits:
            if wait.reason in DEFENCE:
                cycles += wait.last - wait.first + 1
        if cycles:
            self.held[item.pc] += 1
            self.held_cycles[item.pc] += cycles
            self.held_dropped[item.pc] += item.retired is None


def count(batches, holds=None, places=None):
    """The counts of the instructions of these lists, of those that the test takes; by address too where places are given."""
    counts = Counts()
    for batch in batches:
        counts.add_all(batch if holds is None else list(filter(holds, batch)))
        for item in batch if places is not None else ():
            if holds is None or holds(item):
                places.add(item)
    return counts
