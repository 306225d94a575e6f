"""A trace of the simulator, made readable. docs/view.md has an example of each subcommand, and how to read a picture."""
import argparse
import gc
import os
import sys
from itertools import islice
from typing import IO, Any, Generator, Iterator

from wadrelwy import Fault, Unwritten
from wadrelwy.view import annotate, compare, difference, drawing, index, konata, listing, numbers, o3, page, stack, stats, whole as whole_run, why
from wadrelwy.view.description import defence_beside, read_description
from wadrelwy.view.disassembly import CALLERS, KINDS, MANUAL, Disassembler
from wadrelwy.view.image import Image
from wadrelwy.view.items import NEVER
from wadrelwy.view.replay import Replay
from wadrelwy.view.trace import Progress, Trace, end_of, open_trace

SUBCOMMANDS = {
    "stats": "the numbers of the run: cycles, what was fetched, retired, squashed, held by taint, and where time went; of two runs, how "
             "they differ by reason and by function",
    "stack": "the CPI stack, of one run or of several side by side: for each slot of retirement the reason that it has",
    "annotate": "source lines or instructions, by function, with counts beside each: retired, cycles, waits, misses, mispredictions",
    "why": "the reason of each wait and of each cycle in which rename stops short; status 1 if anything is unexplained",
    "list": "one line an instruction with all its times",
    "diff": "the first unequal cycle of two traces and the events that only one has; status 1 if they differ",
    "konata": "the log that the viewer Konata opens (Kanata 0004)",
    "o3": "the text of gem5's O3PipeView, which o3-pipeview.py and Konata open",
    "svg": "a picture, cycles against instructions; of two traces side by side, with the first unequal cycle framed",
    "index": "a file beside the trace, TRACE.index, by which all that take --from begin there without what comes before, but why",
    "html": "the same as a page, with a text for each instruction under the pointer",
}
# how many traces a subcommand takes at most, where it isn't one
MOST = {"diff": 2, "svg": 2, "html": 2, "stats": 2, "stack": 32}
WINDOWED = ("why", "list", "konata", "o3", "svg", "html", "stats", "stack", "annotate")


def words(parser: argparse.ArgumentParser) -> None:
    """The words of all subcommands."""
    subs = parser.add_subparsers(dest="what", required=True, metavar="SUBCOMMAND")
    for name, text in SUBCOMMANDS.items():
        sub = subs.add_parser(name, help=text, description=text)
        sub.add_argument("trace", nargs=2 if name == "diff" else "+" if name in MOST else 1, metavar="TRACE",
                         help="what `trace` wrote; - is standard input, a name in .gz is unpacked")
        sub.add_argument("-e", "--image", action="append", required=True, metavar="IMAGE",
                         help="the image of the run; given twice, the images of two traces")
        sub.add_argument("-D", "--description", action="append", required=True, metavar="DESCRIPTION",
                         help="the description of the run; given twice, those of two traces")
        sub.add_argument("-o", "--output", metavar="FILE", help="where to write; standard output if left out")
        sub.add_argument("--notation", choices=(CALLERS, MANUAL, KINDS), default=CALLERS,
                         help="names of registers and aliases as compilers write them, x-numbers as in docs/, or kinds alone")
        if name in WINDOWED:
            sub.add_argument("--from", dest="first", type=cycle_number, metavar="CYCLE", help="from this cycle on")
            sub.add_argument("--to", dest="last", type=cycle_number, metavar="CYCLE", help="up to this cycle")
        if name == "why":
            sub.add_argument("--summary", action="store_true", help="the sums alone")
        if name in ("stats", "annotate", "why", "list"):
            sub.add_argument("--function", metavar="NAME", help="what is of this function alone")
        if name == "stats":
            sub.add_argument("--json", action="store_true", help="as a JSON object; of two runs, as a list of two")
            sub.add_argument("--top", type=cycle_number, default=stats.MOST, metavar="N", help="this many places, and functions (default 10)")
        if name == "annotate":
            sub.add_argument("--instructions", action="store_true", help="instructions, also where the image tells source lines")
        if name == "stack":
            sub.add_argument("--svg", action="store_true", help="bars as SVG in place of a table")
        if name == "html":
            sub.add_argument("--whole", action="store_true", help="all cycles in one page, which draws what is in sight")
        if name in ("svg", "html", "stack"):
            sub.add_argument("--title", action="append", metavar="TEXT", help="a title for each trace; its name if left out")


def cycle_number(text: str) -> int:
    """A cycle: 1 or more."""
    if not text.isdecimal() or int(text) < 1:
        raise argparse.ArgumentTypeError(f"`{text}` is no cycle; the first one is 1")
    return int(text)


class Inputs:
    """Traces, images and descriptions, each by its side; where one is given for two traces it serves both."""

    def __init__(self, words: argparse.Namespace) -> None:
        self.words = words
        self.names = words.trace
        if len(self.names) > MOST.get(words.what, 1):
            raise Fault(f"{words.what} takes {MOST.get(words.what, 1)} traces at most")
        for option, given in (("-e", words.image), ("-D", words.description)):
            if len(given) not in (1, len(self.names)):
                raise Fault(f"{option} is given {len(given)} times, for {len(self.names)} traces: once serves all, else each has its own")
        first, last = getattr(words, "first", None), getattr(words, "last", None)
        if first and last and first > last:
            raise Fault(f"--from {first} is behind --to {last}")
        self.images = [Image(name) for name in words.image]
        self.disassemblers = [Disassembler(image, words.notation) for image in self.images]
        if getattr(words, "function", None) is not None:
            words.function = self.images[0].function_named(words.function)
        self.descriptions = [read_description(name) for name in words.description]
        # the runs that are taken through, by their sides
        self.taken: dict[int, Replay] = {}

    def of(self, values: list, side: int) -> Any:
        return values[min(side, len(values) - 1)]

    def title(self, side: int) -> str:
        """The title of a trace, or its name."""
        titles = getattr(self.words, "title", None) or []
        return titles[side] if side < len(titles) else os.path.basename(self.names[side])

    def trace(self, side: int) -> Trace:
        return Trace(Progress(open_trace(self.names[side]), self.names[side]))

    def replay(self, side: int, first: int = 1) -> Replay:
        """The run; from a state before this cycle on, where the trace has an index."""
        description = self.of(self.words.description, side)
        image = self.of(self.images, side)
        found = index.replay_from(self.names[side], image, description, first) if first > 1 else None
        self.taken[side] = found or Replay(self.trace(side), self.of(self.images, side), self.of(self.descriptions, side))
        return self.taken[side]

    def cut(self) -> Iterator[str]:
        """What is told of each trace that stops short of a last line, where it was read so far: not of pictures, which say up to where they are,
        nor of `diff`, which tells it among its differences."""
        last = getattr(self.words, "last", None)
        if self.words.what in ("svg", "html", "diff"):
            return
        for side, run in self.taken.items():
            if run.trace.end is None and (last is None or run.pipeline.cycle < last):
                yield f"{self.names[side]}: the trace is cut: it has no last line, and ends with cycle {run.pipeline.cycle}"

    def disassembler(self, side: int) -> Disassembler:
        return self.of(self.disassemblers, side)


def lines_of(words: argparse.Namespace, inputs: Inputs) -> Generator[str, None, int]:
    """The lines that a subcommand writes, and then its status."""
    if words.what == "diff":
        return (yield from lines_of_diff(inputs))
    if words.what in ("stats", "stack", "annotate"):
        yield from lines_of_runs(words, inputs)
        return 0
    if words.what in ("svg", "html"):
        yield from lines_of_picture(words, inputs)
        return 0
    if words.what == "index":
        yield index_made(inputs)
        return 0
    first, disassembler = words.first or 1, inputs.disassembler(0)
    replay = inputs.replay(0, 1 if words.what == "why" else first)
    if words.what == "why":
        yield from there(why.lines_of(replay, disassembler, first, words.last, words.summary, words.function), replay, first)
        return 1 if replay.reasons.unexplained else 0
    else:
        write = {"list": listing, "konata": konata, "o3": o3}[words.what]
        function = [words.function] if words.what == "list" else []
        yield from there(write.lines_of(replay, disassembler, first, words.last, *function), replay, first)
    return 0


def index_made(inputs: Inputs) -> str:
    """Makes the index of a trace, and tells what was made."""
    name = inputs.names[0]
    if name == "-" or not os.path.isfile(name):
        raise Fault("index wants the file of a trace")
    told = index.Told(Progress(open_trace(name), name))
    replay = inputs.taken[0] = Replay(Trace(told), inputs.images[0], inputs.descriptions[0])
    path, states = index.write(replay, inputs.images[0], inputs.words.description[0], name, told)
    return f"{path}: {states} states of {replay.pipeline.cycle} cycles"


def lines_of_runs(words: argparse.Namespace, inputs: Inputs) -> Iterator[str]:
    """What is told of whole runs: their numbers, their stacks, their lines."""
    span, function = (words.first or 1, words.last), getattr(words, "function", None)
    by_place = words.what == "annotate" or words.what == "stats" and (words.json or len(inputs.names) == 2)
    runs = [stats.Run(inputs.title(side), inputs.replay(side, span[0]), inputs.disassembler(side), span, function, by_place)
            for side in range(len(inputs.names))]
    if words.what == "stack":
        stacks = [stack.Run(run.name, run.slots) for run in runs]
        return iter([stack.picture(stacks)]) if words.svg else stack.table(stacks)
    if words.what == "annotate":
        return annotate.lines_of(runs[0], not words.instructions)
    if words.json:
        return numbers.lines_of(runs, words.top)
    return stats.lines_of(runs[0], words.top) if len(runs) == 1 else compare.lines_of(runs, words.top)


def there(lines: Iterator[str], replay: Replay, first: int) -> Iterator[str]:
    """The lines of a span of cycles, once it is known that the trace reaches to the first of them: the header waits for that."""
    held = list(islice(lines, 2))
    if replay.pipeline.cycle < first:
        raise Fault(f"--from {first} is behind the last cycle of the trace, {replay.pipeline.cycle}")
    yield from held
    yield from lines


def lines_of_diff(inputs: Inputs) -> Generator[str, None, int]:
    replays = [inputs.replay(side) for side in (0, 1)]
    found = difference.Difference([replay.trace for replay in replays], replays)
    if found.cycle is None and replays[0].trace.end is None:
        raise Fault(f"both traces are cut, in cycle {replays[0].pipeline.cycle}, and equal up to there: what follows isn't known")
    yield from difference.lines_of(found, [inputs.disassembler(side) for side in (0, 1)])
    return 0 if found.cycle is None else 1


def lines_of_picture(words: argparse.Namespace, inputs: Inputs) -> Iterator[str]:
    """A panel for each trace, over one span of cycles: by default some before the first unequal cycle, or the first ones."""
    sides, whole = range(len(inputs.names)), words.what == "html" and words.whole
    marks = difference.first_unequal([inputs.trace(side) for side in sides]) if len(inputs.names) == 2 else None
    first = words.first or (max(1, marks[0].cycle - drawing.BEFORE) if marks and not whole else 1)
    last = words.last or (NEVER if whole else first + drawing.SPAN - 1)
    panels: list = []
    for side in sides:
        mark = marks[side] if marks else None
        replay = inputs.replay(side, first)
        panel = whole_run.Whole if whole else drawing.Panel
        panels.append(panel(inputs.title(side), replay, inputs.disassembler(side), (first, last), mark))
        panels[-1].facts = facts_of(inputs, side, replay, panels[-1].last)
        if replay.pipeline.cycle < first:
            raise Fault(f"--from {first} is behind the last cycle of the trace, {replay.pipeline.cycle}")
    yield (whole_run.page if whole else page.page if words.what == "html" else drawing.picture)(panels)


def facts_of(inputs: Inputs, side: int, replay: Replay, last: int) -> list:
    """What a page says of where a trace is from, and where it doesn't reach to the end how the run ended, and what shows more of it."""
    image, path = inputs.of(inputs.words.image, side), inputs.of(inputs.words.description, side)
    description = inputs.of(inputs.descriptions, side)
    defence = defence_beside(description.model, description.defence)
    found = [f"image {os.path.basename(image)}, description {os.path.basename(path)}, model {description.model}{defence}"]
    end = None if replay.trace.end else end_of(inputs.names[side])
    return found + ([f"the whole run: {end.text}; --from {last + 1} shows what follows"] if end else [])


def main(asked: argparse.Namespace) -> int:
    """The status is 0, or 1 where traces differ or a wait is unexplained."""
    # what is gone is let go of by `forget`, so nothing is left for a search of cycles of references
    if sys.implementation.name == "cpython":
        gc.disable()
    inputs = Inputs(asked)
    lines = lines_of(asked, inputs)
    status = write_file(lines, asked.output) if asked.output else write(lines, sys.stdout)
    for told in inputs.cut():
        print(f"wadrelwy view: {told}", file=sys.stderr)
    return status


def write_file(lines: Generator[str, None, int], name: str) -> int:
    """Writes the lines to a file of this name, which is made once the first of them is there."""
    held = [next(lines, None)]
    try:
        with open(name, "w", encoding="utf-8") as file:
            return write(chained(held, lines), file, name)
    except BrokenPipeError:
        raise
    except OSError as error:
        raise Fault(f"{name}: {error.strerror}") from None


def chained(held: list, lines: Generator[str, None, int]) -> Generator[str, None, int]:
    yield from held
    return (yield from lines)


def write(lines: Generator[str, None, int], file: IO[str], name: str = "") -> int:
    """Writes the lines, and answers the status that stands behind them."""
    try:
        while True:
            try:
                line = next(lines)
            except StopIteration as stop:
                file.flush()
                return stop.value
            file.write(line + "\n")
    except BrokenPipeError:
        raise
    except OSError as error:
        raise (Fault(f"{name}: {error.strerror}") if name else Unwritten(f"standard output: {error.strerror}")) from None
