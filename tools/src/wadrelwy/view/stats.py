"""`stats`: the numbers of a run."""
from collections import Counter
from typing import Iterator, Optional, TYPE_CHECKING

from wadrelwy.riscv.kinds import BRANCH, JALR

from . import Fault
from .counts import RETURN, count
from .front_end import QUEUE_EMPTY
from .places import Places, function_of, nothing_of
from .slots import Occupancy, Slots

if TYPE_CHECKING:
    from wadrelwy.view.counts import Counts
    from wadrelwy.view.description import Description
    from wadrelwy.view.disassembly import Disassembler
    from wadrelwy.view.front_end import FrontEnd
    from wadrelwy.view.items import Item
    from wadrelwy.view.pipeline import Pipeline
    from wadrelwy.view.reasons import Reasons
    from wadrelwy.view.replay import Replay

LOAD_KINDS = (("hit", "loads: hit"), ("miss", "loads: miss"), ("join", "loads: join a miss"), ("second", "loads: second level"),
              ("forward", "loads: forwarded"), ("fault", "loads: fault"))
OTHER_UNITS = (("agu", "stores issued"), ("alu", "simple, branches, jumps"), ("mul", "multiplications"), ("div", "divisions"))
MOST = 10


class Run:
    """A run taken through, and its numbers: of the cycles of a span, of the instructions that went in it, and of one function alone
    where that is asked for."""

    def __init__(self, name: str, replay: "Replay", disassembler: "Disassembler", span: tuple = (1, None), function: Optional[str] = None,
                 by_place: bool = True) -> None:
        self.name, self.replay, self.disassembler, self.function = name, replay, disassembler, function
        self.image, self.span = disassembler.image, span
        replay.span, replay.occupancy = span, Occupancy(replay.pipeline.description.retire_width)
        replay.only_counts()
        self.by_place = Places() if by_place else None
        whole = span == (1, None) and function is None
        self.counts = count(replay.batches(span[1]), None if whole else self.holds, self.by_place)
        if replay.pipeline.cycle < span[0]:
            raise Fault(f"--from {span[0]} is behind the last cycle of the trace, {replay.pipeline.cycle}")
        if function is not None and not self.counts.fetched:
            raise Fault(nothing_of(self.image, function, span != (1, None)))
        self.slots = self.slots_of_function() if function is not None else replay.slots

    @property
    def places(self) -> Places:
        """The counts by place, where they were asked for."""
        assert self.by_place is not None, "places weren't asked for"
        return self.by_place

    def slots_of_function(self) -> "Slots":
        """The slots that are charged to the function's addresses."""
        whole = self.replay.slots
        part = Slots(self.replay.pipeline)
        part.retired = {pc: number for pc, number in whole.retired.items() if function_of(self.image, pc) == self.function}
        part.lost = {key: number for key, number in whole.lost.items() if function_of(self.image, key[1]) == self.function}
        part.cycles = whole.cycles
        return part

    def holds(self, item: "Item") -> bool:
        first, last = self.span
        inside = (item.gone is None or item.gone >= first) and (last is None or item.fetched <= last)
        return inside and (self.function is None or function_of(self.image, item.pc) == self.function)

    @property
    def cycles(self) -> int:
        return self.replay.slots.cycles

    def by_reason(self) -> dict:
        """The cycles in which nothing retired, by reason and address; of one function, those that are charged to it."""
        return {key: number for key, number in self.replay.reasons.idle.items()
                if self.function is None or function_of(self.image, key[1]) == self.function}


def lines_of(run: "Run", most: int = MOST) -> Iterator[str]:
    """The lines of `stats`."""
    replay, reasons = run.replay, run.replay.reasons
    yield from (f"{name:26}{value}" for name, value in rows_of(run))
    idle = run.by_reason()
    yield from idle_lines(idle, run.cycles)
    yield from stack_lines(run)
    yield from occupancy_lines(replay.occupancy)
    yield from stall_lines(replay.front)
    yield from cost_lines(idle, run.disassembler, most)
    yield from passing_lines(run.counts, replay.pipeline, run.disassembler, most)
    yield from held_lines(run.counts, reasons, run.disassembler, most)


def rows_of(run: "Run") -> Iterator[tuple]:
    """The names and values of the first lines."""
    counts, pipeline, reasons, end = run.counts, run.replay.pipeline, run.replay.reasons, run.replay.trace.end
    cycles, description = run.cycles, pipeline.description
    yield "end", end.text if end else "not read so far" if run.span[1] is not None else "none: the trace is cut"
    if run.function is not None:
        yield "function", run.function
    if run.span != (1, None):
        yield "cycles from, to", f"{run.span[0]}, {pipeline.cycle}"
    yield "cycles", cycles
    yield "retired", counts.retired
    yield "instructions a cycle", f"{counts.retired / max(cycles, 1):.3f}"
    yield "fetched", counts.fetched
    yield "renamed", counts.renamed
    yield "squashed", counts.squashed
    for name, kind in (("branches", BRANCH), ("JALRs", JALR), ("returns", RETURN)):
        yield f"resolved: {name}", f"{counts.resolved[kind]}, mispredicted {counts.mispredicted[kind]}"
    yield "mispredicted", per_thousand(counts.mispredictions, counts.retired)
    for unit, name in LOAD_KINDS:
        if unit != "second" or description.second_sets:
            yield name, executed(counts, unit)
    yield "loads that miss", per_thousand(counts.misses, counts.retired)
    if description.misaligned:
        yield "loads in two lines", counts.two_lines
    for unit, name in OTHER_UNITS:
        yield name, executed(counts, unit)
    yield "stores retired", f"{sum(counts.stores.values())}, to a line in the cache {counts.stores[True]}"
    yield "bytes put out", counts.output
    yield from memory_rows(run, pipeline, description)
    yield reasons.holds, (f"{sum(counts.held.values())} instructions, {sum(counts.held_cycles.values())} cycles; "
                          f"{sum(counts.held_dropped.values())} never went on")
    yield "unexplained", len(reasons.unexplained)


def memory_rows(run: "Run", pipeline: "Pipeline", description: "Description") -> Iterator[tuple]:
    """What is told of lines and of loads that pass stores."""
    counts = run.counts
    yield "lines filled", f"{pipeline.filled}, dropped for them {pipeline.dropped}"
    if description.prefetch:
        yield "lines prefetched", f"{pipeline.prefetched}, from the second level {pipeline.from_second}"
    if description.depend:
        yield "stores cleared", counts.cleared
        yield "loads that passed stores", f"{sum(counts.passed.values())}, violated {sum(counts.violated.values())}"
        yield "bits of dependence set", f"{len(pipeline.learnt)} of {description.depend}"


def per_thousand(number: int, retired: int) -> str:
    return f"{number}, {1000 * number / max(retired, 1):.2f} a thousand retired"


def executed(counts: "Counts", unit: str) -> str:
    """How many issued so, and how many of them didn't retire."""
    wrong = counts.wrong.get(unit, 0)
    return f"{counts.units.get(unit, 0)}" + (f", not retired {wrong}" if wrong else "")


def idle_lines(by_place: dict, cycles: int) -> Iterator[str]:
    idle: Counter = Counter()
    for (reason, _), number in by_place.items():
        idle[reason] += number
    total = sum(idle.values())
    yield f"\nnothing retired in {total} of {cycles} cycles"
    yield from (f"{number:8}  {reason}" for reason, number in idle.most_common())


def stack_lines(run: "Run") -> Iterator[str]:
    """The CPI stack: slots, cycles (slots divided by the width) and their share, cycles an instruction."""
    slots, sums = run.slots, run.slots.sums()
    total = sum(sums.values())
    whole = f"{run.cycles} cycles of {slots.width} slots, {total} in all"
    if run.function is not None:
        whole = f"{total} that are charged to {run.function}"
    yield f"\nslots of retirement: {whole}"
    yield "   slots    cycles   share  cycles an instruction"
    for reason, number in sums.items():
        cycles = number / slots.width
        yield f"{number:8}{cycles:10.2f}{100 * number / max(total, 1):7.1f}%  {cycles / max(run.counts.retired, 1):7.3f}  {reason}"


def occupancy_lines(occupancy: "Occupancy") -> Iterator[str]:
    yield "\nentries at the end of a cycle: on average, at most"
    for name, total, most in zip(occupancy.PLACES, occupancy.sums, occupancy.most):
        yield f"{total / max(occupancy.cycles, 1):8.2f}{most:6}  {name}"
    yield "\ncycles by how many retired in them"
    yield from (f"{cycles:8}  {number}" for number, cycles in enumerate(occupancy.retired))


def stall_lines(front: "FrontEnd") -> Iterator[str]:
    total = sum(number for reason, number in front.rename.items() if reason != QUEUE_EMPTY)
    yield f"\nrename stopped short of the width, with items in the queue, in {total} cycles"
    yield from (f"{number:8}  {reason}" for reason, number in Counter(front.rename).most_common() if reason != QUEUE_EMPTY)


def cost_lines(idle: dict, disassembler: "Disassembler", most: int) -> Iterator[str]:
    """The places at which most cycles without retirement were spent: the oldest entry's, or the mispredicted jump's."""
    costs: Counter = Counter()
    for (_, pc), number in idle.items():
        if pc is not None:
            costs[pc] += number
    yield "\ncycles without retirement by place, the most first"
    yield from (f"{number:8}  {disassembler.place(pc)}" for pc, number in costs.most_common(most))


def passing_lines(counts: "Counts", pipeline: "Pipeline", disassembler: "Disassembler", most: int) -> Iterator[str]:
    """The loads that passed stores wrongly: how often before their bits were set, and how often they waited for addresses then."""
    if sum(counts.violated.values()):
        yield "\nloads that passed stores wrongly by place, the most first"
        for pc, number in counts.violated.most_common(most):
            if number:
                bit = pc // 4 % pipeline.description.depend
                yield (f"{number:8}  {disassembler.place(pc)}: passed stores {counts.passed[pc]} times; bit {bit} is set in cycle "
                       f"{pipeline.learnt[bit]}; waited for an older store's address {counts.waited[pc]} times")


def held_lines(counts: "Counts", reasons: "Reasons", disassembler: "Disassembler", most: int) -> Iterator[str]:
    if counts.held:
        yield f"\ncycles {reasons.holds} by place, the most first"
        for pc, number in counts.held_cycles.most_common(most):
            yield (f"{number:8}  {disassembler.place(pc)}: {counts.held[pc]} times, "
                   f"{counts.held_dropped[pc]} never went on")
