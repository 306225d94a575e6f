"""The numbers of stt_stats by their names (docs/formats.md, "The program stt_stats"), and what is reckoned from them (docs/using.md, "Count a
run")."""
import re
from typing import Callable, Iterable, Mapping, NamedTuple, Optional, Sequence

from wadrelwy import Fault, built_programs
from wadrelwy.view.trace import END, End, read_end

COUNTS = (
    "retired", "fetched", "renamed", "alu", "mul", "divisions", "division_cycles", "store_addresses", "store_data", "load_hits", "load_second",
    "load_misses", "load_joins", "load_forwards", "load_faults", "prefetch_second", "prefetch_memory", "fills", "done", "branches_taken",
    "branches_not_taken", "jumps", "mispredicted_branches", "mispredicted_jumps", "counters", "targets", "cleared_stores", "violations",
    "dependence_bits", "load_squashes", "dropped", "store_hits", "store_misses", "calls", "output_bytes")
# the slots of retirement by reason: each slot of each cycle is in one of them
BASE = "slots_base"
SLOTS = (
    BASE, "slots_front_end", "slots_room", "slots_misprediction", "slots_violation", "slots_call", "slots_simple", "slots_multiplier",
    "slots_divider", "slots_store", "slots_load_first", "slots_load_second", "slots_load_memory", "slots_registers", "slots_resolve",
    "slots_clear", "slots_store_port", "slots_defence", "slots_end")
NAMES = (*COUNTS, *SLOTS)
# stands for itself and any greater number
MOST = 18446744073709551615
CYCLES = "cycles"
ROW = re.compile(r"\d+(?: \d+){%d}" % len(NAMES))
COUNT = re.compile(r"([a-z_]+) (\d+)")

Counts = Mapping[str, int]


class Figure(NamedTuple):
    """What is reckoned: some numbers added, times a factor, and divided by another number where there is one."""
    added: Sequence[str]
    factor: int = 1
    divided: Optional[str] = None

    @property
    def told(self) -> str:
        """From what it is reckoned: `1000 * (load_second + load_misses) / retired`."""
        sums = " + ".join(self.added)
        whole = f"({sums})" if len(self.added) > 1 and self.divided else sums
        return (f"{self.factor} * " if self.factor != 1 else "") + whole + (f" / {self.divided}" if self.divided else "")

    def of(self, counts: Counts) -> Optional[float]:
        """Its value; none where it isn't known, as a number stands for greater ones, or there is nothing to divide by."""
        numbers = [counts[name] for name in self.added]
        if MOST in numbers or self.divided and counts[self.divided] in (0, MOST):
            return None
        return self.factor * sum(numbers) / counts[self.divided] if self.divided else self.factor * sum(numbers)


# the load misses are the loads that `view stats` counts so: the first level lacks their line, and it isn't on its way
CPI, MISSES, MEMORY, MISPREDICTIONS = FIGURES = (
    "cycles_per_instruction", "load_misses_per_thousand", "memory_loads_per_thousand", "mispredictions_per_thousand")
RECKONED = {
    CPI: Figure((CYCLES,), divided="retired"),
    MISSES: Figure(("load_second", "load_misses"), 1000, "retired"),
    MEMORY: Figure(("load_misses",), 1000, "retired"),
    MISPREDICTIONS: Figure(("mispredicted_branches", "mispredicted_jumps"), 1000, "retired"),
}
# gem5's name of what means the same (docs/view.md, "Numbers without a trace")
GEM5 = {
    "simInsts": Figure(("retired",)),
    "system.cpu.numCycles": Figure((CYCLES,)),
    "system.cpu.cpi": RECKONED[CPI],
    "system.cpu.fetch.insts": Figure(("fetched",)),
    "system.cpu.rename.renamedInsts": Figure(("renamed",)),
    "system.cpu.statIssuedInstType_0::IntMult": Figure(("mul",)),
    "system.cpu.statIssuedInstType_0::IntDiv": Figure(("divisions",)),
    "system.cpu.iew.branchMispredicts": Figure(("mispredicted_branches", "mispredicted_jumps")),
    "system.cpu.iew.memOrderViolationEvents": Figure(("violations",)),
    "system.cpu.lsq0.forwLoads": Figure(("load_forwards",)),
    "system.cpu.dcache.ReadReq.hits::total": Figure(("load_hits",)),
    "system.cpu.dcache.ReadReq.misses::total": Figure(("load_second", "load_misses", "load_joins")),
    "system.cpu.dcache.ReadReq.mshrHits::total": Figure(("load_joins",)),
    "system.cpu.dcache.ReadReq.mshrMisses::total": Figure(("load_second", "load_misses")),
    "system.cpu.dcache.WriteReq.hits::total": Figure(("store_hits",)),
    "system.cpu.dcache.WriteReq.misses::total": Figure(("store_misses",)),
}


class Row(NamedTuple):
    """What was counted in some cycles of a run, of which `cycle` is the last."""
    cycle: int
    counts: Counts


class Told(NamedTuple):
    """What the program tells of a run: rows on the way, the numbers of the whole, and its end."""
    rows: Sequence[Row]
    counts: Counts
    end: End


def reckoned(counts: Counts) -> dict[str, Optional[float]]:
    """Each figure of these numbers."""
    return {name: figure.of(counts) for name, figure in RECKONED.items()}


def other_program() -> Fault:
    return Fault(f"the program doesn't answer as {built_programs.STATS} does: is it that program, and of this version?")


def row_of(line: str, every: int) -> Row:
    """A line that is told on the way."""
    cycle, *numbers = map(int, line.split(" "))
    return Row(cycle, {CYCLES: every, **dict(zip(NAMES, numbers, strict=True))})


def read(lines: Iterable[str], every: Optional[int] = None, seen: Callable[[Row], None] = lambda row: None) -> Optional[Told]:
    """What the program's text tells; none where it stops short of an end. `seen` is given each row as it comes. Refused is a text that isn't
    the program's: other names, rows of other cycles, or more in the rows than in the whole."""
    rows: list[Row] = []
    counts: dict[str, int] = {}
    end: Optional[End] = None
    for line in lines:
        line = line.rstrip("\n")
        found = COUNT.fullmatch(line)
        if end is None and every and not counts and ROW.fullmatch(line):
            rows.append(row_of(line, every))
            if rows[-1].cycle != len(rows) * every:
                raise other_program()
            seen(rows[-1])
        elif end is None and found and len(counts) < len(NAMES) and found[1] == NAMES[len(counts)]:
            counts[found[1]] = int(found[2])
        elif end is None and len(counts) == len(NAMES) and END.fullmatch(line):
            end = read_end(line)
        else:
            raise other_program()
    return checked(Told(rows, {CYCLES: end.cycles, **counts}, end), every) if end else None


def shares(counts: Counts) -> dict[str, Optional[float]]:
    """The part of all slots that each reason has; none where that isn't known, as a number stands for greater ones, or there is no slot."""
    numbers = [counts[name] for name in SLOTS]
    known = sum(numbers) and MOST not in numbers
    return {name: counts[name] / sum(numbers) if known else None for name in SLOTS}


def has_slots(counts: Counts, cycles: int) -> bool:
    """Whether each cycle has as many slots as any other, as far as that is known; and as many instructions are in them as retired."""
    numbers = [counts[name] for name in SLOTS]
    return MOST in numbers or counts[BASE] == counts["retired"] and (sum(numbers) % cycles == 0 if cycles else sum(numbers) == 0)


def checked(told: Told, every: Optional[int]) -> Told:
    """Refuses what can't be of one run."""
    parts = {name: sum(row.counts[name] for row in told.rows) for name in NAMES}
    more = [name for name in NAMES if told.counts[name] != MOST and parts[name] > told.counts[name]]
    slots = all(has_slots(counts, counts[CYCLES]) for counts in (told.counts, *(row.counts for row in told.rows)))
    if more or not slots or told.counts["retired"] != told.end.retired or every and len(told.rows) != told.end.cycles // every:
        raise other_program()
    return told
