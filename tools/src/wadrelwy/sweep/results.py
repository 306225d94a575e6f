"""What came of a plan's runs: rows, and what is made of them."""
import csv
import io
import json
import math
import os
import statistics
from typing import NamedTuple, Optional

from wadrelwy.counting import numbers
from wadrelwy.view import Fault
from wadrelwy.view.description import OFF
from wadrelwy.view.trace import END, read_end

from . import settings
from .kept import text, write
from .plan import check

TASK = "task_"
LONG = 300
# stands before the counts of a result, with how long the run took
SECONDS = "host_seconds"


class Refuted(Exception):
    """Results that can't be of one program: what is proved says otherwise."""


class Row(NamedTuple):
    """A run that is over, or that is refused. `slowdown` is how much longer it takes than the same without protection, 0.1 for a tenth; none
    where no such run is there, or one of the two didn't end by an exit. `against` is how much longer than the same of another build. Where it
    was counted there are its misses and mispredictions for a thousand instructions, its slots by reason, and the seconds that it took."""
    program: str
    description: str
    values: dict
    defence: str
    end: str
    retired: Optional[int]
    cycles: Optional[int]
    slowdown: Optional[float]
    against: Optional[float] = None
    misses: Optional[float] = None
    mispredictions: Optional[float] = None
    slots: Optional[dict] = None
    seconds: Optional[float] = None

    @property
    def rest(self):
        """What is set besides model and defence."""
        return {key: value for key, value in self.values.items() if key not in (settings.MODEL, settings.DEFENCE)}

    @property
    def exits(self):
        return self.end.startswith("exit ")

    @property
    def name(self):
        return " ".join([self.program, self.description, *(f"{key}={value}" for key, value in self.values.items())])


def line_of(run, said):
    """A result as its file has it: whole, as it ends with the run's own name."""
    return f"{said.rstrip()}\nof {run.id}\n" if "\n" in said.rstrip() else f"{said.rstrip()} of {run.id}\n"


def same(asks, one, other):
    """Whether two results can be of one run: what is asked may say so, else they are one text."""
    return asks.same(one, other) if hasattr(asks, "same") else one == other


def brief(kept):
    """A result for a line: of a long one its last."""
    text_of = kept.strip()
    return text_of if len(text_of) <= LONG else text_of.splitlines()[-1]


class Store:
    """The results that a folder has: of each run what was said, and why what else stands there is none. A run's result is a file of its name,
    or a line of a task's file."""

    def __init__(self, plan, asks, folder=None):
        self.plan, self.asks, self.found, self.faults = plan, asks, {}, {}
        self.names = {run.id for run in plan.runs if not run.refused}
        self.folder = os.path.join(folder or plan.folder, "results")
        there = set(os.listdir(self.folder)) if os.path.isdir(self.folder) else set()
        for name in self.names & there:
            self.take(name, text(os.path.join(self.folder, name)))
        for name in sorted(there):
            if name.startswith(TASK) and name not in self.names and not name.endswith(".part"):
                self.take_lines(text(os.path.join(self.folder, name)))

    def take_lines(self, lines):
        for line in lines.splitlines(keepends=True):
            name = line.strip().rpartition(" of ")[2]
            if name in self.names:
                self.take(name, line)

    def take(self, name, said):
        """A result, where it is whole and this run's."""
        body, space, of = said.rstrip("\n").rpartition("of ")
        kept = self.asks.kept(body.rstrip(" ")) if space and of == name and said.endswith("\n") else None
        if kept is None:
            self.faults.setdefault(name, "its result is none: it was cut, or is another's")
        elif not same(self.asks, self.found.setdefault(name, kept), kept):
            raise Refuted(f"{name} has two results, `{brief(self.found[name])}` and `{brief(kept)}`, and a run has one")

    def why(self, run):
        return self.faults.get(run.id, "no result") if run.id not in self.found else None


def brought(plan, asks, folders):
    """Takes over the results of other folders of the same plan; answers how many came."""
    here, came = Store(plan, asks), 0
    by_name = {run.id: run for run in plan.runs}
    for folder in folders:
        if not os.path.isdir(os.path.join(folder, "results")):
            raise Fault(f"{folder} has no folder `results`")
        for name, said in Store(plan, asks, folder).found.items():
            if not same(asks, here.found.setdefault(name, said), said):
                raise Refuted(f"{name} has two results, `{brief(here.found[name])}` and in {folder} `{brief(said)}`, and a run has one")
            if not os.path.exists(plan.path(by_name[name].result)):
                write(plan.path(by_name[name].result), line_of(by_name[name], said).encode())
                came += 1
    return came


def rows(plan, asks):
    """The rows of all runs that are over or refused, and those that are missing, each with why."""
    check(plan.folder, {plan.program} | {name for run in plan.runs for name in (run.description, run.image)})
    store, found, missing = Store(plan, asks), [], []
    values = {name: settings.parsed(text(plan.path(name)), name) for name in {run.description for run in plan.runs}}
    for run in plan.runs:
        told = settings.told(values[run.description]) if settings.MODEL in values[run.description] else "?"
        if run.refused:
            found.append((run, Row(run.program, run.base, run.values, told, run.refused, None, None, None)))
        elif run.id in store.found:
            kept = store.found[run.id].strip()
            end = read_end(kept.splitlines()[-1])
            row = Row(run.program, run.base, run.values, told, end.how, end.retired, end.cycles, None)
            found.append((run, with_counts(row, counts_of(kept))))
        else:
            missing.append((run, store.why(run)))
    agree(found, values)
    return with_slowdowns([row for _, row in found]), missing


def counts_of(kept_text):
    """What a result that was counted tells, and how many seconds the run took; none of any other."""
    first, *lines = kept_text.splitlines()
    try:
        told, seconds = numbers.read(lines), float(first.removeprefix(f"{SECONDS} "))
    except (Fault, ValueError):
        return None
    return (told, seconds) if told else None


def with_counts(row, counted):
    """The row with what was counted of its run, if it was."""
    if counted is None:
        return row
    told, seconds = counted
    figures = numbers.reckoned(told.counts)
    slots = {name: told.counts[name] for name in numbers.SLOTS}
    return row._replace(misses=figures[numbers.MISSES], mispredictions=figures[numbers.MISPREDICTIONS], slots=slots, seconds=seconds)


def with_slowdowns(found):
    free = {key_of(row): row.cycles for row in found if row.defence == OFF and row.exits}
    return [row._replace(slowdown=row.cycles / free[key_of(row)] - 1) if row.exits and key_of(row) in free else row for row in found]


def build_of(program):
    """The folder and the name of a program: of `gcc-O0/sort` the build `gcc-O0` and the program `sort`."""
    return os.path.split(program)


def with_builds(found, build):
    """Each row with how much longer it takes than the row of the build's program of its name, under the same description and settings."""
    of_build = {(build_of(row.program)[1], row.description, tuple(row.values.items())): row for row in found
                if build_of(row.program)[0] == build and row.exits}
    if not of_build:
        builds = sorted({build_of(row.program)[0] for row in found} - {""})
        raise Fault(f"--against {build}: no program of this build exited; builds are the folders by which names are told apart: "
                    f"{', '.join(builds) or 'there are none'}")
    for row in found:
        base = of_build.get((build_of(row.program)[1], row.description, tuple(row.values.items())))
        yield row._replace(against=row.cycles / base.cycles - 1) if base and row.exits else row


def builds(found, build):
    """A line for each other build under each description and setting: by how much its programs take longer than those of this one."""
    parts = {}
    for row in found:
        name = build_of(row.program)[0]
        if row.against is not None and name != build:
            setting = " ".join([row.description, *(f"{key}={value}" for key, value in row.values.items())])
            parts.setdefault((setting, name), []).append(row.against)
    for (setting, name), ratios in parts.items():
        of = spread(ratios)
        yield (f"{setting}: {name} takes {100 * of.mean:+.1f} % against {build} (n {of.n}, median {100 * of.median:+.1f} %, {100 * of.least:+.1f} % to "
               f"{100 * of.most:+.1f} %)")


def key_of(row):
    return row.program, row.description, tuple(row.rest.items())


def agree(found, values):
    """The runs of one image in one memory end alike and retire as many, under every description, and as on the instruction set: that is
    proved. A run that its budget ended retires no more."""
    first = {}
    for run, row in found:
        if run.refused:
            continue
        ram = tuple(values[run.description].get(f"ram.{key}") for key in ("base", "size", "misaligned"))
        told = f"{row.end} retired {row.retired}"
        if row.end != "budget":
            other = first.setdefault((run.image, ram), (run.end or told, "the instruction set" if run.end else run.name))
            if told != other[0]:
                raise Refuted(f"{run.name}: {told}, and {other[1]}: {other[0]}. One program has one end and one number, and that is "
                              f"proved; so these results aren't of one image, or the simulator isn't what was proved")
    for run, row in found:
        if row.end == "budget" and run.end and row.retired > int(run.end.split()[-1]):
            raise Refuted(f"{run.name}: retired {row.retired}, and the instruction set ends after {run.end.split()[-1]}")


def records(found, keys, cited):
    """The rows as records, with a name for each value."""
    against, counted = (any(getattr(row, name) is not None for row in found) for name in ("against", "seconds"))
    for row in found:
        yield ({"program": row.program, "description": row.description} | {key: row.values[key] for key in keys}
               | {"defence": row.defence, "end": row.end, "retired": row.retired, "cycles": row.cycles,
                  "instructions_per_cycle": round(row.retired / row.cycles, 4) if row.cycles else None,
                  "slowdown": rounded(row.slowdown, 6)}
               | ({"against": rounded(row.against, 6)} if against else {})
               | ({numbers.MISSES: rounded(row.misses, 4), numbers.MISPREDICTIONS: rounded(row.mispredictions, 4)}
                  | (row.slots or dict.fromkeys(numbers.SLOTS)) | {"host_seconds": row.seconds} if counted else {})
               | {"made_by": cited})


def rounded(value, digits):
    return None if value is None else round(value, digits)


def as_csv(found, keys, cited):
    out, given = io.StringIO(), list(records(found, keys, cited))
    writer = csv.DictWriter(out, list(given[0]) if given else ["program"], lineterminator="\n")
    writer.writeheader()
    writer.writerows(given)
    return out.getvalue()


def as_json(found, keys, cited):
    """A list with a record a line."""
    return "[" + ",".join(f"\n{json.dumps(record)}" for record in records(found, keys, cited)) + "\n]\n"


def mean(slowdowns):
    """The geometric mean of slowdowns, that of the ratios less one."""
    return math.exp(sum(math.log1p(it) for it in slowdowns) / len(slowdowns)) - 1


class Spread(NamedTuple):
    """Of some slowdowns: how many they are, their geometric mean, and the median, the least and the most."""
    n: int
    mean: float
    median: float
    least: float
    most: float


def spread(slowdowns):
    return Spread(len(slowdowns), mean(slowdowns), statistics.median(slowdowns), min(slowdowns), max(slowdowns))


def defences_of(found):
    """The defences that there are, in the order of their table, and those that protect."""
    order = [settings.told(values) for values in settings.DEFENCES]
    there = sorted({row.defence for row in found} & set(order), key=order.index)
    return [defence for defence in there if defence != OFF]


def groups(found):
    """The rows of each description and what is set besides model and defence, by a title."""
    parts = {}
    for row in found:
        title = ", ".join([row.description] + [f"{key} {value}" for key, value in row.rest.items()])
        parts.setdefault(title, []).append(row)
    return parts


def other_ends(found):
    """How many rows have no slowdown, as they end by a trap or a budget, or are refused: a line of each kind with their names."""
    for what, told in [("budget", "were ended by the budget"), ("trap", "end by a trap"), ("refused", "are refused")]:
        some = [row for row in found if row.end.split()[0] == what]
        if some:
            names = "; ".join(f"{row.name} ({row.end})" for row in some[:4]) + (f" and {len(some) - 4} more" if len(some) > 4 else "")
            yield f"{len(some)} of {len(found)} runs {told}, and have no slowdown: {names}"
