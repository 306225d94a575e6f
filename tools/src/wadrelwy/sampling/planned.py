"""The windows of an image under descriptions as a plan (module `wadrelwy.sweep.plan`), and the question that they are of."""
import json
import os
import sys
import time
from argparse import Namespace
from concurrent.futures import Future, ThreadPoolExecutor, as_completed
from types import TracebackType
from typing import Any, Iterator, NamedTuple, Optional

from wadrelwy import Fault, built_programs
from wadrelwy.going_on.report import Report
from wadrelwy.machine.words import MOST
from wadrelwy.sweep import lists, plan, running, settings
from wadrelwy.sweep.kept import IMAGE_MAX, changed, cited, content, copied, plain, sha256, source, write
from wadrelwy.sweep.results import line_of
from wadrelwy.verdict.loaded import load
from wadrelwy.view.description import read_description

from . import chain, measuring, places, side_by_side

PLAN, QUESTION = "windows.json", "sample.json"
# how many cycles the lines that are touched before a window take from memory, each by itself
FIRST_LOADS = "first_loads"
# whether a window is a further one, to find where the run changes its level
CHANGE = "change"
OF_A_WINDOW = ("window", "begin", "warm", "longer", FIRST_LOADS, CHANGE)
KEYS = ("windows", "length", "warm", "seed", "steps", "at", "touch", "set", "defences")


class Question(NamedTuple):
    """What was asked: the image's name, how many instructions it retires and how it ends in each memory that a description gives, the words of
    the command, and the names of what is counted."""
    program: str
    retired: int
    end: str
    asked: dict[str, Any]
    names: measuring.Names


def of_setting(run: plan.Run) -> tuple[str, tuple[tuple[str, Any], ...]]:
    """A description's name and what is set in it."""
    return run.base, tuple((key, value) for key, value in run.values.items() if key not in OF_A_WINDOW)


class Asks:
    """What is run for a window, and what of it is kept; its words have which window it is."""
    more, whole, statuses = measuring.MORE, measuring.WHOLE, measuring.STATUSES

    def __init__(self, names: measuring.Names, length: int) -> None:
        self.names, self.length = names, length

    def script(self, made: plan.Plan) -> str:
        return measuring.script(self.names, self.length)

    def kept(self, said: str) -> Optional[str]:
        line = said.strip()
        return line if measuring.read_taken(line) else None


def asks_of(question: Question) -> Asks:
    return Asks(question.names, question.asked["length"])


class Measurer(running.Runner):
    """Measures the windows that have no result yet, as many at once as there are processors."""

    def one(self, run: plan.Run) -> None:
        if self.stopped:
            return
        self.plan.check(run)
        first, last = map(int, run.words)
        window = measuring.Window(self.plan.path(self.plan.program), self.plan.path(run.description), self.plan.path(run.image), first, last)
        try:
            taken = measuring.measured(window, self.asks.names, self.children)
        except Fault:
            if self.stopped:
                return
            raise
        self.plan.check(run)
        write(self.plan.path(run.result), line_of(run, measuring.line_of(taken)).encode())


class Beside:
    """Measures windows while the images of further ones are made."""

    def __init__(self, measurer: Measurer) -> None:
        self.measurer, self.pool = measurer, ThreadPoolExecutor(measurer.jobs)
        self.waiting: list["Future[None]"] = []
        self.begun: set[str] = set()

    def __enter__(self) -> "Beside":
        return self

    def add(self, run: plan.Run) -> None:
        """A window whose image is there. One that went wrong ends all."""
        for over in [each for each in self.waiting if each.done()]:
            self.waiting.remove(over)
            over.result()
        if run.id not in self.begun and not os.path.exists(self.measurer.plan.path(run.result)):
            self.begun.add(run.id)
            self.waiting.append(self.pool.submit(self.measurer.one, run))

    def __exit__(self, kind: Optional[type[BaseException]], fault: Optional[BaseException], trace: Optional[TracebackType]) -> None:
        begun = time.monotonic()
        try:
            if kind is not None:
                self.measurer.stop(self.waiting)
                return
            for done, over in enumerate(as_completed(self.waiting), 1):
                over.result()
                running.tell(self.measurer.screen, "windows", done, len(self.waiting), time.monotonic() - begun)
        except BaseException:
            self.measurer.stop(self.waiting)
            raise
        finally:
            running.clear(self.measurer.screen)
            self.pool.shutdown()


def question_of(asked: Namespace, programs: list[str]) -> dict[str, Any]:
    """All that the windows and their images follow from."""
    files = {path: sha256(content(path)) for path in [*programs, asked.image, *asked.descriptions]}
    return {key: getattr(asked, key) for key in KEYS} | {"files": files}


def make(asked: Namespace, simulator: str, counting: str) -> tuple[plan.Plan, Question]:
    """The plan of these words with its images; the one that the folder has, where it is of these very words and files."""
    if content(asked.image)[:4] != b"\x7fELF":
        raise Fault(f"{asked.image}: no ELF image; the image comes first, and the descriptions behind it")
    words = question_of(asked, [counting, simulator])
    if os.path.exists(os.path.join(asked.output, QUESTION)):
        found = read_question(asked.output)
        if found.asked == words:
            return plan.read(asked.output, PLAN), found
    return Maker(asked, simulator, counting, words).made()


def read(folder: str) -> tuple[plan.Plan, Question]:
    """What a folder has. What it was made of has to be what it was."""
    question, made = read_question(folder), plan.read(folder, PLAN)
    plan.check_sources(made, anew=plan.ANEW)
    return made, question


def read_question(folder: str) -> Question:
    path = os.path.join(folder, QUESTION)
    if os.path.isdir(folder) and not os.path.exists(path):
        raise Fault(f"{path} isn't there, so the images of {folder} aren't all: {plan.ANEW}")
    try:
        return Question(**json.loads(content(path)))
    except (ValueError, TypeError):
        raise Fault(f"{path}: no question of these tools: {plan.ANEW}") from None


class Setting(NamedTuple):
    """A description's name, what is set in it, and the file made of it, with its text and the values of all its keys."""
    base: str
    values: dict[str, Any]
    description: str
    text: bytes
    machine: dict[str, Any]


def caches_of(values: dict[str, Any]) -> chain.Caches:
    """The lines of a description's caches."""
    number = {key: values.get(f"cache.{key}", 0) for key in ("line", "sets", "ways", "second_sets", "second_ways")}
    return chain.Caches(number["line"], number["sets"] * number["ways"] + number["second_sets"] * max(number["second_ways"], 1))


class Memory(NamedTuple):
    """The memory that a description gives, and its caches, where they are touched: what images follow from."""
    base: int
    size: int
    misaligned: int
    caches: Optional[chain.Caches]


class Maker:
    """Makes a plan: the windows are those of the image's run, their images those of a chain, or of two side by side, for each memory, and caches, that the
    descriptions give.
    Windows are measured as soon as their image is there, unless lists of them are asked for."""

    def __init__(self, asked: Namespace, simulator: str, counting: str, words: dict[str, Any]) -> None:
        self.asked, self.words, self.folder = asked, words, asked.output
        self.sources = [source(path) for path in [counting, asked.image, *asked.descriptions, simulator]]
        self.simulator, self.copy = (copied(self.folder, "programs", os.path.basename(path), "", content(path), executable=True)
                                     for path in (simulator, counting))
        self.simulator_cited = f"{built_programs.told_name(simulator)} sha256 {self.sources[-1].sha256}, "
        # what tells the commit and the kit takes as long as ten windows do, so it is asked beside the run of the instruction set
        self.counting_cited = ThreadPoolExecutor(1).submit(cited, counting, built_programs.told_name(counting))
        self.name = os.path.splitext(os.path.basename(asked.image))[0]
        self.wholes: dict[tuple[int, int, int], Report] = {}
        os.makedirs(os.path.join(self.folder, "results"), exist_ok=True)

    def path(self, name: str) -> str:
        return os.path.join(self.folder, name)

    def plan_of(self, runs: list[plan.Run]) -> plan.Plan:
        return plan.Plan(self.folder, measuring.FOREVER, plan.sets_of(self.asked)[1], self.copy, self.simulator_cited + self.counting_cited.result(),
                         self.sources, runs)

    def made(self) -> tuple[plan.Plan, Question]:
        parts: dict[Memory, list[Setting]] = {}
        names: set[measuring.Names] = set()
        order: list[str] = []
        for base, values, description, text in plan.described(self.folder, self.asked, plan.sets_of(self.asked)[0]):
            setting = Setting(base, values, description, text, settings.parsed(text.decode(), description))
            names.add(tuple(measuring.names_of(self.path(self.copy), self.path(setting.description), self.asked.image)))
            parts.setdefault(self.memory_of(setting.machine), []).append(setting)
            order.append(setting.description)
        wholes = {(whole.end, whole.retired) for whole in (self.whole(memory, part[0]) for memory, part in parts.items())}
        if len(wholes) > 1:
            raise Fault(f"{self.asked.image} runs otherwise in the descriptions' unlike memories: ask of each by itself")
        end, retired = wholes.pop()
        question = Question(self.name, retired, end, self.words, names.pop())
        # until all images are there the folder has no question: neither one of its own, nor one that was asked before
        lists.remove(self.path(QUESTION))
        made = self.plan_of(sorted(self.runs(parts, question), key=lambda run: (order.index(run.description), run.values["longer"], run.values["window"])))
        if changed(self.sources[1:2]):
            raise Fault(f"{self.asked.image} was written while its images were made: {plan.ANEW}")
        plan.keep(made, PLAN)
        write(self.path(QUESTION), json.dumps(question._asdict()).encode())
        return made, question

    def runs(self, parts: dict[Memory, list[Setting]], question: Question) -> list[plan.Run]:
        """The windows of all settings, measured on the way."""
        if self.asked.list or self.asked.gather:
            return [run for memory, part in parts.items() for run in self.windows(memory, part, question.retired)]
        found = []
        with Beside(Measurer(self.plan_of([]), self.asked.jobs, asks_of(question))) as beside:
            for memory, part in parts.items():
                for run in self.windows(memory, part, question.retired):
                    beside.add(run)
                    found.append(run)
        return found

    def memory_of(self, values: dict[str, Any]) -> Memory:
        base, size, misaligned = (values.get(f"ram.{key}", 0) for key in ("base", "size", "misaligned"))
        return Memory(base, size, misaligned, caches_of(values) if self.asked.touch else None)

    def whole(self, memory: Memory, setting: Setting) -> Report:
        """The instruction set's run. What the budget of all steps ends is no whole run, and is taken for one only where the words say so."""
        if memory[:3] not in self.wholes:
            found = chain.report(self.path(self.simulator), self.asked.image, self.asked.steps or MOST, self.path(setting.description))
            if found.goes_on and self.asked.steps is None:
                raise Fault(f"{self.asked.image}: the run doesn't end within {MOST} instructions; --steps N takes the first N for the run")
            self.wholes[memory[:3]] = found
        return self.wholes[memory[:3]]

    def windows(self, memory: Memory, part: list[Setting], steps: int) -> Iterator[plan.Run]:
        """The windows of settings in one memory, as soon as the image before each is there."""
        asked, where = self.asked, self.path(part[0].description)
        windows = places.windows(steps, asked.windows, asked.length, asked.warm, asked.seed)
        windows += places.longer(windows)
        begun, going = time.monotonic(), chain.Chain(
            self.path(self.simulator), load(asked.image, read_description(where)), where, self.whole(memory, part[0]), asked.at, memory.caches)
        starts = sorted({window.start for window in windows})
        for done, begin in enumerate(self.begins(going, starts), 1):
            yield from (self.run(setting, window, begin) for window in windows if window.start == begin.place for setting in part)
            running.tell(sys.stderr, "places", done, len(starts), time.monotonic() - begun)
        running.clear(sys.stderr)

    def begins(self, going: chain.Chain, starts: list[int]) -> Iterator[side_by_side.Begin]:
        """What begins at each of these places, as soon as it is there; at the run's begin that is the image itself."""
        if starts[0] == 0:
            image = copied(self.folder, "images", f"{self.name}-0", ".elf", content(self.asked.image, IMAGE_MAX))
            yield side_by_side.Begin(0, image, 0, 0)
        yield from side_by_side.begins(side_by_side.cut(going, [start for start in starts if start], self.asked.jobs), self.folder, self.name)

    def run(self, setting: Setting, window: places.Window, begin: side_by_side.Begin) -> plan.Run:
        """A window as a run of the plan: its words are how many retire in the new image before the window, and behind it."""
        before = begin.extra + window.warm
        words = [str(before), str(before + self.asked.length)]
        name = sha256(" ".join([self.sources[0].sha256, begin.image, sha256(setting.text), *words]).encode())[:16]
        first = begin.lines * setting.machine.get("cache.miss_latency", 0)
        told = setting.values | {"window": window.number, "begin": window.begin, "warm": window.warm, "longer": window.longer, FIRST_LOADS: first,
                                 CHANGE: False}
        result = os.path.join("results", f"{plain(self.name)}_{name}")
        return plan.Run(self.name, begin.image, os.path.abspath(self.asked.image), setting.base, setting.description, told, result, words,
                        cost=window.warm + self.asked.length)
