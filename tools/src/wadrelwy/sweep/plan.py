"""Which runs there are: each program under each description under each combination of settings.

A plan is a folder. `plan.json` has the runs, a line each, and a line by which they are cited; `images`, `programs` and `descriptions` have copies of all
that they are made of (module `kept`); `results` has a file for each run that is over. Its name has a digest of all that the run depends on:
so a run isn't done twice, and none is taken for another."""
import itertools
import json
import os
from typing import NamedTuple, Optional

from wadrelwy import built_programs
from wadrelwy.view import Fault
from wadrelwy.view.description import DESCRIPTION_MAX

from . import settings
from .kept import IMAGE_MAX, Source, check, changed, cited, content, copied, plain, sha256, source, text, write

PLAN = "plan.json"
CYCLES, STEPS = "cycles", "steps"
ANEW = "give the whole command again"
GIVE_ANEW = f"{ANEW}, or --copies to go on with what the folder has"


class Run(NamedTuple):
    """A run: the program's name, its image and the file of which that is a copy; the description's name and the file made of it; what is set;
    the file of its result; what else is asked of the image; and why it is refused, if it is. Files of the plan are named within its folder.
    `cost` is about how many instructions it takes, 0 where that isn't known; `end` is how it ends by the instruction set, if that was seen.
    `unit` is what its budget counts: the steps are of a run of the instruction set, whose description gives memory alone, and may be empty."""
    program: str
    image: str
    origin: str
    base: str
    description: str
    values: dict
    result: str
    words: list = []
    refused: Optional[str] = None
    cost: int = 0
    end: Optional[str] = None
    unit: str = CYCLES

    @property
    def of_path(self):
        """Whether it is a run of the instruction set."""
        return self.unit == STEPS

    @property
    def files(self):
        """The files that it is made of."""
        return [*([self.description] if self.description else []), self.image]

    @property
    def name(self):
        """As a line names it: the program, the description and what is set."""
        return " ".join([self.program, self.base, *(f"{key}={value}" for key, value in self.values.items())])

    @property
    def id(self):
        return os.path.basename(self.result)


class Plan(NamedTuple):
    """All runs of a folder, for how many cycles each may go, the program that makes them, and what all that was made of; and the program that
    counts them as they are made, if there is one."""
    folder: str
    cycles: int
    keys: list
    program: str
    cited: str
    sources: list
    runs: list
    counting: Optional[str] = None

    @property
    def programs(self):
        return [self.program, *([self.counting] if self.counting else [])]

    def path(self, name):
        return os.path.join(self.folder, name)

    def check(self, run):
        """What a run is made of is what was planned."""
        check(self.folder, [*self.programs, *run.files])


def names_of(paths):
    """A short name for each file: its own, with as much of its folders as tells it from the others."""
    def short(path, parts):
        return os.path.splitext("/".join(os.path.abspath(path).split("/")[-parts:]))[0]
    most = max((os.path.abspath(path).count("/") for path in paths), default=0) + 1
    parts = next((parts for parts in range(1, most + 1) if len({short(path, parts) for path in paths}) == len(paths)), None)
    if parts is None:
        whole = [short(path, most) for path in paths]
        one, other = next((paths[whole.index(name)], path) for at, (name, path) in enumerate(zip(whole, paths)) if name in whole[:at])
        raise Fault(f"a file is named twice, or two have one name but for its ending: {one} and {other}")
    return [short(path, parts) for path in paths]


def combinations(sets, defences):
    """What is set in each run: all combinations of the values; with `defences` under each of these."""
    rows = [dict(zip((key for key, _ in sets), values)) for values in itertools.product(*(values for _, values in sets))]
    return [row | defence for row in rows for defence in settings.DEFENCES] if defences else rows


def sets_of(words):
    """The keys and values of --set, and all keys that are set."""
    sets = [settings.asked(word) for word in words.set]
    keys = [key for key, _ in sets] + ([settings.MODEL, settings.DEFENCE] if words.defences else [])
    twice = [key for key in keys if keys.count(key) > 1]
    if twice:
        raise Fault(f"{twice[0]} is set twice")
    return sets, keys


def described(folder, words, sets):
    """The descriptions: each one's name, what is set, and the file made of it, with its text."""
    for base, path in zip(names_of(words.descriptions), words.descriptions):
        for values in combinations(sets, words.defences):
            made = settings.with_values(text(path, DESCRIPTION_MAX), values, path).encode()
            label = "_".join([base.replace("/", "-")] + [f"{key}={value}" for key, value in values.items()])
            yield base, values, copied(folder, "descriptions", label, ".toml", made), made


def make(folder, simulator, words, file=PLAN, more=lambda image: [], memories=lambda sets: (), counting=None):
    """The plan of these words, kept in this file with copies of all that it is made of. `more` has further words for an image, `memories` what
    runs of the instruction set are asked in, each as `described` has descriptions. `counting` is the program that counts, if there is one."""
    sets, keys = sets_of(words)
    program, name = content(simulator), os.path.basename(simulator)
    images = [(name, path, content(path, IMAGE_MAX), more(path)) for name, path in zip(names_of(words.programs), words.programs)]
    for path in words.descriptions:
        settings.parsed(text(path, DESCRIPTION_MAX), path)
    sources = [source(path) for path in [simulator, *words.programs, *words.descriptions, *([counting] if counting else [])]]
    images = [(name, path, copied(folder, "images", name.replace("/", "-"), ".elf", data), sha256(data), further)
              for name, path, data, further in images]
    copy = copied(folder, "programs", name, "", program, executable=True)
    counter = copied(folder, "programs", os.path.basename(counting), "", content(counting), executable=True) if counting else None
    counted_by = [sources[-1].sha256] if counting else []
    os.makedirs(os.path.join(folder, "results"), exist_ok=True)
    runs = []
    for unit, rows in ((CYCLES, described(folder, words, sets)), (STEPS, memories(sets))):
        for base, values, description, made in rows:
            for program_name, path, image, digest, further in images:
                parts = [sources[0].sha256, digest, sha256(made), str(words.cycles), *further, *([unit] if unit == STEPS else []), *counted_by]
                name = f"{plain(program_name.replace('/', '-'))}_{sha256(' '.join(parts).encode())[:16]}"
                result = os.path.join("results", name)
                runs.append(Run(program_name, image, os.path.abspath(path), base, description, values, result, further, unit=unit))
    also = f"{built_programs.told_name(counting)} sha256 {sources[-1].sha256}, " if counting else ""
    return Plan(folder, words.cycles, keys, copy, also + cited(simulator, built_programs.told_name(simulator)), sources, runs, counter)


def keep(plan, file=PLAN):
    """Writes a plan into its folder, a run a line."""
    head = {"cycles": plan.cycles, "keys": plan.keys, "program": plan.program, "cited": plan.cited,
            "sources": [each._asdict() for each in plan.sources], "counting": plan.counting, "columns": Run._fields}
    runs = ",\n".join(json.dumps(run) for run in plan.runs)
    write(plan.path(file), f'{json.dumps(head)[:-1]}, "runs": [\n{runs}\n]}}\n'.encode())
    return plan


def read(folder, file=PLAN):
    """The plan that a folder has in this file."""
    try:
        found = json.loads(content(os.path.join(folder, file)))
        sources, columns = [Source(**each) for each in found["sources"]], found["columns"]
        runs = [Run(**dict(zip(columns, run, strict=True))) for run in found["runs"]]
        return Plan(folder, found["cycles"], found["keys"], found["program"], found["cited"], sources, runs, found.get("counting"))
    except (ValueError, KeyError, TypeError):
        raise Fault(f"{os.path.join(folder, file)}: no plan of these tools: give the whole command again") from None


def check_sources(plan, program=None, counting=None, anew=GIVE_ANEW):
    """What the plan was made of is as it was then, where it is there, and so are the programs that are named now."""
    other = changed(plan.sources)
    if other is not None:
        raise Fault(f"{other.path} isn't what it was when {plan.folder} was planned: {anew}")
    for named, of in ((program, plan.sources[0]), (counting, plan.sources[-1] if plan.counting else None)):
        if named is not None and (of is None or sha256(content(named)) != of.sha256):
            raise Fault(f"{named} isn't the program by which {plan.folder} was planned: {anew}")


def check_cycles(plan, cycles):
    """A folder alone goes on with the budget that it was planned with: another one that is named is refused."""
    if cycles not in (None, plan.cycles):
        raise Fault(f"{plan.folder} was planned with --cycles {plan.cycles}, and not with {cycles}: {ANEW}")
