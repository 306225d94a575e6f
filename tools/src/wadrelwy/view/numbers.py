"""`stats --json`: the numbers of a run as one JSON object. Cycles, slots and instructions are whole numbers."""
import json
from collections import Counter
from typing import Iterator, TYPE_CHECKING

from wadrelwy.riscv.kinds import BRANCH, JALR

from .places import by_function, function_of, merged, slots_by_address
from .stats import LOAD_KINDS, OTHER_UNITS, RETURN

if TYPE_CHECKING:
    from wadrelwy.view.stats import Run


def lines_of(runs: list, most: int) -> Iterator[str]:
    """The object of one run, or the list of those of two."""
    found = [numbers(run, most) for run in runs]
    yield json.dumps(found if len(found) > 1 else found[0], indent=1)


def numbers(run: "Run", most: int) -> dict:
    """All numbers of a run; of places and functions those that cost most."""
    counts, replay = run.counts, run.replay
    pipeline, end = replay.pipeline, replay.trace.end
    return {
        "trace": run.name, "end": end.text if end else None, "first_cycle": run.span[0], "last_cycle": pipeline.cycle,
        "function": run.function, "cycles": run.cycles, "retire_width": run.slots.width,
        "instructions": {"fetched": counts.fetched, "renamed": counts.renamed, "squashed": counts.squashed, "retired": counts.retired},
        "resolved": {name: {"resolved": counts.resolved[kind], "mispredicted": counts.mispredicted[kind]}
                     for name, kind in (("branches", BRANCH), ("JALRs", JALR), ("returns", RETURN))},
        "issued": {name: {"issued": counts.units.get(unit, 0), "not_retired": counts.wrong.get(unit, 0)}
                   for unit, name in LOAD_KINDS + OTHER_UNITS},
        "per_thousand_retired": {"mispredicted": share(counts.mispredictions, counts.retired),
                                 "loads_that_miss": share(counts.misses, counts.retired)},
        "defence": {"name": replay.reasons.holds, "instructions": sum(counts.held.values()), "cycles": sum(counts.held_cycles.values())},
        "loads_that_passed_stores": {"passed": sum(counts.passed.values()), "violated": sum(counts.violated.values())},
        "slots": run.slots.sums(),
        "occupancy": {name: {"average": total / max(replay.occupancy.cycles, 1), "most": top} for name, total, top in
                      zip(replay.occupancy.PLACES, replay.occupancy.sums, replay.occupancy.most)},
        "cycles_by_number_retired": replay.occupancy.retired,
        "nothing_retired": summed(run.by_reason()),
        "rename_stopped_short": dict(replay.front.rename), "fetch_stopped_short": dict(replay.front.fetch),
        "unexplained": len(replay.reasons.unexplained),
        "functions": functions(run)[:most], "places": places(run)[:most],
    }


def share(number: int, retired: int) -> float:
    return 1000 * number / max(retired, 1)


def summed(by_place: dict) -> dict:
    found: Counter = Counter()
    for (reason, _), number in by_place.items():
        found[reason] += number
    return dict(found.most_common())


def functions(run: "Run") -> list:
    """Each function with its slots and counts, that with the most slots first."""
    slots = by_function(run.image, slots_by_address(run.slots))
    rows: dict = {}
    for pc, row in run.places.counts.items():
        rows.setdefault(function_of(run.image, pc), []).append(row)
    found = [{"function": name, "slots": slots.get(name, 0), **merged(rows.get(name, ()))} for name in {*slots, *rows}]
    return sorted(found, key=lambda row: (-row["slots"], row["function"]))


def places(run: "Run") -> list:
    """Each instruction with its slots, by reason too, and its counts, that with the most slots first."""
    slots = slots_by_address(run.slots)
    reasons: dict = {}
    for (reason, pc), number in run.slots.lost.items():
        reasons.setdefault(pc, {})[reason] = number
    found = [{"address": pc, "place": run.disassembler.place(pc), "source": run.image.sources.told(pc), "slots": number,
              "lost": reasons.get(pc, {}), **run.places.counts.get(pc, {})} for pc, number in slots.items() if pc is not None]
    return sorted(found, key=lambda row: (-row["slots"], row["address"]))
