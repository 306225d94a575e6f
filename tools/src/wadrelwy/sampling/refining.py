"""Further windows of a plan, where the run changes its level (module `changes`)."""
import os
from typing import Any, Optional

from wadrelwy import Fault
from wadrelwy.going_on.report import Report
from wadrelwy.sweep import plan, settings
from wadrelwy.sweep.kept import changed, check, content, copied, plain, sha256
from wadrelwy.sweep.results import Store
from wadrelwy.verdict.loaded import load
from wadrelwy.view.description import read_description

from . import chain, changes, measuring
from .planned import CHANGE, FIRST_LOADS, PLAN, Question, asks_of, caches_of, of_setting


Measured = list[tuple[plan.Run, changes.At]]


def measured(made: plan.Plan, question: Question) -> dict[tuple[Any, ...], Measured]:
    """The windows with the warm-up that was asked for of each setting, in their order."""
    store = Store(made, asks_of(question))
    found: dict[tuple[Any, ...], Measured] = {}
    for run in made.runs:
        taken = measuring.read_taken(store.found[run.id].strip()) if run.id in store.found else None
        if taken and not run.values["longer"]:
            found.setdefault(of_setting(run), []).append((run, changes.At(run.values["begin"], taken)))
    return {setting: sorted(part, key=lambda pair: pair[1].begin) for setting, part in found.items()}


def refined(made: plan.Plan, question: Question) -> Optional[plan.Plan]:
    """The plan with a further window for each change that isn't known well, kept; none where there is no such change, or the image is gone."""
    asked, runs = question.asked, []
    for part in measured(made, question).values():
        windows = [pair for pair in part if not pair[0].values[CHANGE]]
        further = [at for run, at in part if run.values[CHANGE]]
        if len(windows) < asked["windows"]:
            continue
        for change in changes.changes([at for _, at in windows], further, asked["length"]):
            if change.is_wanted(asked["length"]) and os.path.exists(windows[0][0].origin):
                runs.append(window(made, question, windows[change.number][0], change.next(asked["length"])))
    if not runs:
        return None
    return plan.keep(made._replace(runs=[*made.runs, *runs]), PLAN)


def window(made: plan.Plan, question: Question, before: plan.Run, begin: int) -> plan.Run:
    """A further window, whose image is made of that of the window before it, where all of which it is made is what it was."""
    other = changed([each for each in made.sources if each.path == before.origin])
    if other is not None:
        raise Fault(f"{other.path} isn't what it was when {made.folder} was planned: {plan.ANEW}")
    check(made.folder, [simulator(made), *before.files])
    asked, description = question.asked, made.path(before.description)
    image, path = load(before.origin, read_description(description)), made.path(before.image)
    stands, text = load(path, read_description(description)), content(description)
    values = settings.parsed(text.decode(), description)
    nothing = Report([0] * 32, image.entry, (), "", 0)
    going = chain.Chain(os.path.join(made.folder, simulator(made)), image, description, nothing, stands.entry, caches_of(values) if asked["touch"] else None)
    going.memory, going.path = stands.memory, path
    going.memory[going.at - image.base:going.at - image.base + going.size] = bytes(going.size)
    going.done, going.extra = before.values["begin"] - before.values["warm"], int(before.words[0]) - before.values["warm"]
    warm = min(asked["warm"], begin - going.done - 1)
    file = copied(made.folder, "images", f"{made.runs[0].program}-{begin - warm}", ".elf", going.to(begin - warm))
    words = [str(going.extra + warm), str(going.extra + warm + asked["length"])]
    name = sha256(" ".join([made.sources[0].sha256, file, sha256(text), *words]).encode())[:16]
    told = before.values | {"begin": begin, "warm": warm, FIRST_LOADS: going.lines * values.get("cache.miss_latency", 0), CHANGE: True}
    return before._replace(image=file, values=told, words=words, result=before.result[:-16] + name)


def simulator(made: plan.Plan) -> str:
    """The folder's copy of the simulator."""
    source = made.sources[-1]
    return os.path.join("programs", f"{plain(os.path.basename(source.path))}_{source.sha256[:16]}")
