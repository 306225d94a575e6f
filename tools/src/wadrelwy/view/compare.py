"""`stats A B`: two runs by function, as of two builds of one program or of one build under two descriptions."""
from typing import Iterator

from .numbers import functions
from .slots import STACK

COUNTS = ("retired", "misses", "mispredicted", "defence")


def lines_of(runs: list, most: int) -> Iterator[str]:
    """The sums of both, the difference of each reason, and of each function: cycles that are charged to it, and counts."""
    first, second = runs
    yield f"A: {first.name}: {first.cycles} cycles, {first.counts.retired} retired"
    yield f"B: {second.name}: {second.cycles} cycles, {second.counts.retired} retired"
    yield f"\n{'cycles by reason':34}{'A':>12}{'B':>12}{'B - A':>12}"
    sums = [run.slots.sums() for run in runs]
    for reason in STACK:
        if any(reason in one for one in sums):
            yield row(reason, *(one.get(reason, 0) / run.slots.width for one, run in zip(sums, runs)))
    yield row("sum", *(sum(one.values()) / run.slots.width for one, run in zip(sums, runs)))
    yield from function_lines(runs, most)


def function_lines(runs: list, most: int) -> Iterator[str]:
    tables = [{row["function"]: row for row in functions(run)} for run in runs]
    names = {*tables[0], *tables[1]}
    cycles = {name: [table.get(name, {}).get("slots", 0) / run.slots.width for table, run in zip(tables, runs)] for name in names}
    order = sorted(names, key=lambda name: (-abs(cycles[name][1] - cycles[name][0]), name))
    yield f"\n{'cycles by function':34}{'A':>12}{'B':>12}{'B - A':>12}  " + "  ".join(f"{name:>15}" for name in COUNTS)
    for name in order[:most]:
        counts = (f"{tables[0].get(name, {}).get(what, 0):>7}>{tables[1].get(name, {}).get(what, 0):<7}" for what in COUNTS)
        yield (row(name, *cycles[name]) + "  " + "  ".join(counts)).rstrip()


def row(name: str, first: float, second: float) -> str:
    return f"{name[:33]:34}{first:>12.2f}{second:>12.2f}{second - first:>+12.2f}"
