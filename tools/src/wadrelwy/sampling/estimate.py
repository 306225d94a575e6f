"""What the windows tell of the whole run."""
import csv
import io
import json
import math
import statistics
from functools import cached_property
from typing import Any, Iterable, Iterator, NamedTuple, Optional, Sequence

from wadrelwy.counting.numbers import CPI, CYCLES, RECKONED, Figure
from wadrelwy.sweep.plan import Plan, Run
from wadrelwy.sweep.results import Store

from .changes import At, Change, changes
from .measuring import RETIRED, Taken, read_taken
from .places import TIMES
from .planned import CHANGE, FIRST_LOADS, Question, asks_of, of_setting

# the share of intervals that hold, where windows are many
SHARE = 95
NORMAL = 1.959964
# an interval that is wider is told with how many windows it may take to make it so
WIDE = 0.05


def student(degrees: int) -> float:
    """Student's quantile for both ends together 5 in a hundred, by its expansion about the normal one; right to 0.01 from 5 degrees on."""
    z, n = NORMAL, degrees
    return (z + (z ** 3 + z) / (4 * n) + (5 * z ** 5 + 16 * z ** 3 + 3 * z) / (96 * n ** 2)
            + (3 * z ** 7 + 19 * z ** 5 + 17 * z ** 3 - 15 * z) / (384 * n ** 3))


class Value(NamedTuple):
    """A figure of the whole run: what it is estimated at, half the width of its interval, and what of the value comes from the windows with the
    longer warm-up: how much more they tell than the same windows with the one that was asked for."""
    figure: Figure
    value: float
    half: float
    longer: Optional[float]

    @property
    def wide(self) -> float:
        """Half the width of the interval with what may be left of the cold start put to it, where that falls as the warm-up grows: a warm-up of
        TIMES that length leaves the TIMES-th part, so the rest is what was taken off, over TIMES - 1."""
        return self.half + abs(self.longer or 0) / (TIMES - 1)


def divisor(figure: Figure) -> str:
    """By which number a figure is divided."""
    assert figure.divided is not None
    return figure.divided


def ratio(figure: Figure, windows: Sequence[Taken]) -> Optional[float]:
    """A figure of all these windows together."""
    return figure.of({name: sum(number_of(taken, name) for taken in windows) for name in [*figure.added, divisor(figure)]})


def number_of(taken: Taken, name: str) -> int:
    return taken.cycles if name == CYCLES else taken.counts[name]


class Moved(NamedTuple):
    """A change of level whose place was found, by its first window: of how many parts the level before it has the two parts in which it comes,
    0 to 2, and how well that is known."""
    number: int
    parts: float
    unknown: float


def moved(found: Sequence[Change], steps: int, count: int) -> list[Moved]:
    """The changes of a run of so many instructions in so many parts."""
    return [Moved(change.number, change.place * count / steps - change.number, (change.high - change.low) * count / steps) for change in found if change.is_found]


def by_changes(figure: Figure, windows: Sequence[Taken], found: Sequence[Moved]) -> float:
    """What the places of the changes put to a figure: without them each of the two windows counts for a part."""
    if divisor(figure) != RETIRED:
        return 0
    pairs = [(ratio(figure, [windows[each.number]]), ratio(figure, [windows[each.number + 1]]), each.parts) for each in found]
    return sum((parts - 1) * (before - after) for before, after, parts in pairs if before is not None and after is not None) / len(windows)


def half_of(figure: Figure, value: float, windows: Sequence[Taken], found: Sequence[Moved] = ()) -> float:
    """Half the width of the interval of a figure. Each window is of a part of its own, so what counts is how unlike it is to its neighbours: its
    deviation from the value is compared with the next one's. Two neighbours make a degree of freedom. Where the place of a change is known, its
    step counts as much as is unknown of it."""
    count = len(windows)
    if count < 2:
        return math.inf
    off = deviations(figure, value, windows)
    weights = {each.number: each.unknown ** 2 / 6 for each in found} if divisor(figure) == RETIRED else {}
    squares = sum(weights.get(at, 1) * (after - before) ** 2 for at, (before, after) in enumerate(zip(off, off[1:]))) / (2 * (count - 1))
    return student(max(count // 2, 1)) * math.sqrt(squares / count)


def deviations(figure: Figure, value: float, windows: Sequence[Taken]) -> list[float]:
    """By how much each window is off the value, in windows of their mean length."""
    divided = [number_of(taken, divisor(figure)) for taken in windows]
    added = [sum(number_of(taken, name) for name in figure.added) for taken in windows]
    mean = sum(divided) / len(divided)
    return [(figure.factor * part - value * by) / mean for part, by in zip(added, divided)]


def longer_of(figure: Figure, longer: Sequence[Taken], same: Sequence[Taken]) -> Optional[tuple[float, float]]:
    """How much more windows with the longer warm-up tell than the same ones with the shorter, and half the width of its interval, where there are
    two and more of them."""
    values = [ratio(figure, windows) for windows in (longer, same)]
    if len(longer) < 2 or values[0] is None or values[1] is None:
        return None
    steps = [a - b for a, b in zip(deviations(figure, values[0], longer), deviations(figure, values[1], same))]
    return values[0] - values[1], student(len(steps) - 1) * statistics.stdev(steps) / math.sqrt(len(steps))


def figures_of(names: Iterable[str]) -> dict[str, Figure]:
    """What is told of a run: cycles per instruction and what else is reckoned as a share of something, and each number for a thousand instructions."""
    there = {CYCLES, *names}
    found = {name: figure for name, figure in RECKONED.items() if figure.divided and there.issuperset([*figure.added, figure.divided])}
    return found | {name: Figure((name,), 1000, RETIRED) for name in names if name != RETIRED}


class Estimate(NamedTuple):
    """Of a description: how many windows were measured, how many of them with the longer warm-up, too, the figures by their names, and how many
    cycles the run may take more since what is touched before a window isn't missed in it."""
    description: str
    values: dict[str, Any]
    windows: int
    compared: int
    figures: dict[str, Value]
    first: int = 0

    @property
    def name(self) -> str:
        return " ".join([self.description, *(f"{key}={value}" for key, value in self.values.items())])

    @property
    def cycles(self) -> Value:
        """Cycles per instruction."""
        return self.figures[CPI]

    def bounds(self, retired: int) -> tuple[float, float]:
        """The interval of the cycles per instruction of a run of so many instructions, with all that is known of what was cold or too warm."""
        return max(self.cycles.value - self.cycles.wide, 0), self.cycles.value + self.cycles.wide + self.first / retired

    @property
    def needed(self) -> int:
        """How many windows, as unlike as these are, come to an interval that isn't wide."""
        return math.ceil(self.windows * (self.cycles.half / (WIDE * self.cycles.value)) ** 2)


def estimate(description: str, values: dict[str, Any], whole: dict[int, Taken], longer: dict[int, Taken], first: int = 0,
             found: Sequence[Moved] = ()) -> Estimate:
    """Of the windows by their numbers. Each has about one length, so a figure is that of all together, with what the longer warm-up changes in
    those that have it put to it."""
    windows, both = [whole[number] for number in sorted(whole)], [number for number in longer if number in whole]
    made = {}
    for name, figure in figures_of(windows[0].counts).items():
        value = ratio(figure, windows)
        if value is None:
            continue
        value += by_changes(figure, windows, found)
        half = half_of(figure, value, windows, found)
        more = longer_of(figure, [longer[number] for number in both], [whole[number] for number in both])
        made[name] = Value(figure, max(value + more[0], 0), math.hypot(half, more[1]), more[0]) if more else Value(figure, value, half, None)
    return Estimate(description, values, len(windows), len(both), made, first)


class Found:
    """What a folder has: each window that was measured, and those that are missing, with why; and what they come to."""

    def __init__(self, question: Question, measured: list[tuple[Run, Taken]], missing: list[tuple[Run, str]]) -> None:
        self.question, self.measured, self.missing = question, measured, missing

    def moved(self, here: list[tuple[Run, Taken]]) -> list[Moved]:
        """The changes of a setting whose places were found; none where windows are missing."""
        count, length = self.question.asked["windows"], self.question.asked["length"]
        windows, further = ([At(run.values["begin"], taken) for run, taken in here if not run.values["longer"] and run.values[CHANGE] == change]
                            for change in (False, True))
        found = changes(sorted(windows), further, length) if len(windows) == count else []
        return moved(found, self.question.retired, count)

    @cached_property
    def estimates(self) -> list[Estimate]:
        """One of each description and what is set in it."""
        return list(self.each_estimate())

    def each_estimate(self) -> Iterator[Estimate]:
        settings = dict.fromkeys(of_setting(run) for run, _ in self.measured)
        for base, values in settings:
            here = [(run, taken) for run, taken in self.measured if of_setting(run) == (base, values)]
            of = {longer: {run.values["window"]: taken for run, taken in here if run.values["longer"] == longer and not run.values[CHANGE]}
                  for longer in (False, True)}
            first = max((run.values[FIRST_LOADS] for run, _ in here), default=0)
            # one window alone has no interval
            if len(of[False]) > 1:
                yield estimate(base, dict(values), of[False], of[True], first, self.moved(here))


def found_in(made: Plan, question: Question) -> Found:
    store = Store(made, asks_of(question))
    measured = [(run, taken) for run in made.runs if run.id in store.found and (taken := read_taken(store.found[run.id].strip()))]
    return Found(question, measured, [(run, store.why(run)) for run in made.runs if run.id not in store.found])


def about(question: Question) -> Iterator[str]:
    """What the estimates are of."""
    asked = question.asked
    ends = "cut there by --steps" if question.end == "budget" else f"to its end, {question.end}"
    yield f"{question.program}: {question.retired} instructions, {ends}"
    share = 100 * asked["windows"] * asked["length"] / question.retired
    yield (f"{asked['windows']} windows of {asked['length']} instructions, {share:.2g} % of the run, each in a core that begins cold {asked['warm']} "
           "instructions before")


def told(question: Question, made: Estimate) -> Iterator[str]:
    """An estimate in words."""
    cycles, more = made.cycles, made.first / question.retired
    low, high = made.bounds(question.retired)
    yield (f"{made.name}: {cycles.value:.4f} cycles per instruction, +- {cycles.half:.4f} ({100 * cycles.half / cycles.value:.1f} %); "
           f"{told_cycles(cycles.value * question.retired)} cycles")
    if cycles.longer is None:
        yield "  cold start: not asked; all windows have the run's own begin before them"
    else:
        yield (f"  cold start: with {TIMES} times the warm-up {made.compared} of the windows take {100 * cycles.longer / cycles.value:+.1f} %, which is in "
               "the estimate; what is left of it isn't known")
    if cycles.half > WIDE * cycles.value:
        yield f"  that is wide: +- {100 * WIDE:.0f} % may take some {made.needed} windows, as unlike as these are"
    if more:
        yield (f"  first loads: up to {100 * more / cycles.value:.1f} % more, where what is loaded before a window is loaded there for the first time in the "
               "run, each line by itself")
    yield f"  with all: {low:.4f} to {high:.4f}, {told_cycles(low * question.retired)} to {told_cycles(high * question.retired)} cycles"
    for name in RECKONED:
        if name != CPI and (value := made.figures.get(name)):
            cold = "" if value.longer is None else f", {value.longer:+.3f} of it by the longer warm-up"
            yield f"  {name.replace('_', ' ')}: {value.value:.3f} +- {value.half:.3f}{cold}"


def told_cycles(cycles: float) -> str:
    return f"{cycles / 1e6:.4g} million" if cycles >= 1e6 else f"{cycles:.0f}"


HOW = (f"+- is the {SHARE} % interval of a mean over parts of the run: Student's quantile, times the root of half the mean square of the steps from "
       "each window to the next, over the root of how many they are; and that of the mean of what the longer warm-up changes, by the root of the sum of "
       "squares. It tells how much windows differ, and nothing of what is left of the cold start: the interval with all has a third of that change on each side, and the first loads above.",
       "No theorem ties an estimate to a run. `wadrelwy run` counts the cycles of the whole run, and its number is proved.")


def summary(question: Question, found: Found) -> Iterator[str]:
    yield from about(question)
    if found.missing:
        yield f"{len(found.missing)} of {len(found.missing) + len(found.measured)} windows are missing: what follows is of the others"
    for made in found.estimates:
        yield from told(question, made)
    yield from HOW


def records(question: Question, found: Found, cited: str) -> Iterator[dict[str, Any]]:
    """A record for each description."""
    for made in found.estimates:
        cycles, (low, high) = made.cycles, made.bounds(question.retired)
        yield ({"program": question.program, "description": made.description} | made.values
               | {"retired": question.retired, "end": question.end, "windows": made.windows, "length": question.asked["length"],
                  "warm": question.asked["warm"], "cycles_per_instruction": round(cycles.value, 6), "half_interval": round(cycles.half, 6),
                  "share": SHARE, "longer_windows": made.compared, "longer_changes": rounded(cycles.longer), "low": round(low, 6), "high": round(high, 6),
                  "estimated_cycles": round(cycles.value * question.retired), "is_proved": False, "made_by": cited})


def rounded(value: Optional[float]) -> Optional[float]:
    return None if value is None else round(value, 6)


def figure_records(found: Found) -> Iterator[dict[str, Any]]:
    """A record for each figure of each description, and from what it is reckoned."""
    for made in found.estimates:
        for name, value in made.figures.items():
            yield ({"description": made.description} | made.values
                   | {"figure": name, "value": round(value.value, 6), "half_interval": round(value.half, 6), "longer_changes": rounded(value.longer),
                      "from": value.figure.told})


def window_records(found: Found) -> Iterator[dict[str, Any]]:
    """A record for each window that was measured."""
    for run, taken in found.measured:
        yield ({"description": run.base} | run.values
               | {"first_cycle": taken.first_cycle, "last_cycle": taken.last_cycle, CPI: round(taken.each, 6), **taken.counts})


def as_csv(given: Iterable[dict[str, Any]]) -> str:
    out, rows = io.StringIO(), list(given)
    writer = csv.DictWriter(out, list(rows[0]) if rows else ["program"], lineterminator="\n")
    writer.writeheader()
    writer.writerows(rows)
    return out.getvalue()


def as_json(given: Iterable[dict[str, Any]]) -> str:
    return "[" + ",".join(f"\n{json.dumps(record)}" for record in given) + "\n]\n"
