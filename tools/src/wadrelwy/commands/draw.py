"""Holds each answer of a table of certificates against the machine: other values of the secret, and `pair`.

    wadrelwy draw FOLDER [--draws N] [--seed S] [--only NAME] [--except NAME] [--public-stream N].. [--jobs N] [--program P]
                  [--record FILE]

FOLDER is that of wadrelwy certify. Of each certified run `pair` is asked of values of the secret, of two at a time, of the first and the
image's own to begin with, whether they have one trace: two that haven't contradict what is proved. Of each run in which something shows it
is asked until a value with another trace than the image's own is found. The values are zeros and ones; words that are addresses within memory,
all of them and one at a time; where a branch shows, what it compares on the path, at each place of the secret; N that are drawn; and for what
shows the image's own with one byte changed. Where none is found, what shows may be conservative (docs/secrets.md, "What stays conservative"), or
is met by few values only, and the line says by how few. What is asked of every core that delays is of no one machine, so such a run is skipped, and
told; and so is one that has no answer yet, as where `wadrelwy certify` was interrupted. A secret of which there are no more than N values is tried
with each. A secret that the file has no bytes for (.bss) is skipped, and told. A line is written for each run; its NAME, of --only and --except, is a part of
`chacha20 gcc-O2 spectre`, with the description behind the second word where there are several. The cycles are those that the run was looked at.

Where FOLDER was asked with public streams, only values are compared with which the program publishes what it does with the image's own, in as
many steps of the instruction set; of what shows, up to the run's end. The line says how many values were tried, and how many of them publish
the same. Where none does, nothing is compared, and the line says so: as a rule of a long output, since hardly a second secret gives it.
--public-stream needn't stand; where it does, it names the streams that FOLDER was asked with, or is refused.

With --record FILE what is compared is kept in FILE, a CSV with a row for each cell and each stretch of pairs that one call compared of it, which is
replaced after each pair. Pairs that it has of the same image, description, secret, streams, cycles and seed aren't run again, by whichever
simulator they were; what is told of a cell counts them, and says how many were compared now and how many before. So where it was stopped, by
an interrupt too, the same command goes on; and a larger N only adds, since the values of N draws are the first of those of more. All cells
go on side by side, that of which fewest values were tried first, so a stop leaves each with about as many; a line is written for each as soon
as it is through. One process at a time may write FILE, and locks FILE.lock; another is refused, and so is a file that is no record.

N is 20 and S is 1 without them, and as many --jobs as processors; P is the simulator: without --program the variable STT_CLI, else
crates/stt_cli/out/stt_cli. The status is 0; 16 where traces that are proved equal aren't; 3 where a run was skipped, or nothing of it was
compared; 2 for a refusal, and 130 if interrupted."""
import io
import itertools
import os
import sys
import tempfile
import threading
from concurrent.futures import ThreadPoolExecutor
from functools import cache
from typing import NamedTuple, Optional

from wadrelwy import Fault, built_programs, statuses
from wadrelwy.machine import words as asking
from wadrelwy.sweep.kept import digest, sha256
from wadrelwy.sweep.results import Store
from wadrelwy.verdict import certificates, certifying, drawing, published, ranges, report, secrecy, side_by_side, simulator, stretches
from wadrelwy.verdict.certificate import MOST_RETIRED
from wadrelwy.verdict.loaded import Loaded, load
from wadrelwy.verdict.patched import Patches
from wadrelwy.verdict.secrecy import BRANCH
from wadrelwy.view.description import read_description


def words(parser):
    parser.add_argument("folder", metavar="FOLDER")
    parser.add_argument("--draws", type=int, default=20, metavar="N")
    parser.add_argument("--seed", type=int, default=1, metavar="S")
    parser.add_argument("--only", default="", metavar="NAME")
    parser.add_argument("--except", dest="left_out", metavar="NAME")
    asking.public_streams(parser)
    parser.add_argument("--jobs", type=int, default=len(os.sched_getaffinity(0)), metavar="N")
    parser.add_argument("--program", metavar="P")
    parser.add_argument("--record", metavar="FILE")


def name_of(plan, run):
    """The program, its folder, the description where there are several, and what is set: `chacha20 gcc-O2 spectre`."""
    build, file = certificates.build_of(run), os.path.basename(run.origin)
    several = len({other.base for other in plan.runs}) > 1
    return " ".join([file.removesuffix(".elf"), build, *[run.base] * several, *certificates.told_setting(plan, run)])


# one value at a time is looked at: cells of one image come to the same one, and it is kept for all
LOOKING = threading.Lock()


@cache
def output_of(path, memory, streams, steps):
    """An image in a memory, and what it publishes in so many steps: one walk for all descriptions of one memory."""
    image = Loaded(path, *memory)
    return image, published.output(image, streams, steps)


@cache
def publishes_the_same(path, memory, secret, streams, steps, value):
    """Whether an image publishes with this value of a secret what it does with its own, in so many steps."""
    image, wanted = output_of(path, memory, streams, steps)
    return published.is_published(published.with_value(image, secret, value), wanted)


class Outcome(NamedTuple):
    """What came of a run's values: how many were tried, and how many of them compared; where two traces are unequal in which cycle, of which two
    secrets, and in which pair; and, where there is a record, how many were compared before, and whether the unequal two were."""
    tried: int
    compared: int
    unequal: Optional[tuple] = None
    pair: int = 0
    before: Optional[int] = None
    is_old: bool = False


class Drawing:
    """A run of the table, and the values that are tried of its secret."""

    def __init__(self, plan, run, program, store, screen=sys.stderr):
        self.screen = screen
        plan.check(run)
        self.of_path = run.of_path
        self.row = certificates.row_of(plan, run, store)
        self.name = name_of(plan, run)
        self.description, self.program = plan.path(run.description), program
        self.patches = Patches(self.row.image)
        self.secret = [ranges.named(certificates.image_of(self.row.image), word) for word in secrecy.secrets_in(run.words)]
        shown, end = self.row.answer.shown, self.row.answer.end
        self.cycles = plan.cycles if shown or end.how != "budget" else end.cycles

    def unequal(self, values, folder):
        """The first unequal cycle of the traces of two values; none where they are equal."""
        images = [self.patches.write(os.path.join(folder, name), self.secret, value) for name, value in zip(("one.elf", "two.elf"), values, strict=True)]
        words = "pair", self.description, *images, "--cycles", str(self.cycles)
        return simulator.answer(simulator.run(self.program, *words, screen=self.screen), self.program).unequal

    def fixed(self, own, seed):
        """The values that are tried whatever the number of draws: such as show what hardly a drawn one does."""
        machine = read_description(self.description)
        found = drawing.telling(own, machine.base, machine.size, seed)
        shown = self.row.answer.shown
        if shown and shown.what == BRANCH:
            image = load(self.row.image, machine)
            found += drawing.of_operands(own, drawing.operands_at(image, shown.pc, MOST_RETIRED * shown.cycle))
        return found + (drawing.changed(own) if shown else [])

    def is_alike(self, value):
        """Whether the program publishes with a value what it does with the secret's own, in as many steps; so it is where no stream is public."""
        if not self.row.streams:
            return True
        machine, end = read_description(self.description), self.row.answer.end
        steps = end.retired if end else MOST_RETIRED * self.cycles
        with LOOKING:
            return publishes_the_same(self.row.image, (machine.base, machine.size, machine.misaligned), tuple(self.secret), self.row.streams, steps, value)

    def question(self, draws, seed, folder):
        """The run as a cell whose pairs are kept; the list of its values is known by those that are fixed, and the first that is drawn."""
        own = self.patches.value(self.secret)
        fixed = self.fixed(own, seed)
        words = " ".join(f"{each.address:08x}:{each.size}" for each in self.secret), " ".join(map(str, self.row.streams)), str(self.cycles), str(seed)
        listed = sha256(b"".join([own, *fixed, *drawing.drawn(own, 1, seed)]))
        cell = stretches.Cell(digest(self.row.image), digest(self.description), *words, listed)
        values, by = drawing.others(own, fixed + drawing.drawn(own, draws, seed)), digest(self.program)

        def unequal(two):
            cycle = self.unequal(two, folder)
            if digest(self.program) != by:
                raise Fault(f"{self.program} isn't what it was when this call began: the same command goes on with what it is now")
            return cycle
        return side_by_side.Question(self.name, cell, own, values, bool(self.row.answer.shown), self.is_alike, unequal, by)

    def skipped(self):
        """Why this run can't be tried; none where it can."""
        if self.of_path:
            return "it is of every core that delays, and of no one machine"
        try:
            self.patches.value(self.secret)
        except Fault as fault:
            return str(fault)
        return None

    def told(self, said):
        """The line of this run."""
        return f"{self.name}: {self.row.verdict()}; {said}"

    def tried(self, draws, seed):
        """What came of the values that are tried: its line, and the status."""
        why = self.skipped()
        if why:
            return self.told(f"skipped: {why}"), statuses.CUT
        own, shown = self.patches.value(self.secret), self.row.answer.shown
        drawn = drawing.others(own, self.fixed(own, seed) + drawing.drawn(own, draws, seed))
        values = [value for value in drawn if self.is_alike(value)]
        found = Outcome(len(drawn), len(values))
        pairs = [(own, value) for value in values] if shown else list(itertools.zip_longest([own, *values][::2], values[::2], fillvalue=own))
        with tempfile.TemporaryDirectory() as folder:
            for number, two in enumerate(pairs if values else [], 1):
                cycle = self.unequal(two, folder)
                if cycle is not None:
                    return self.answered(found._replace(unequal=(cycle, *two), pair=number), draws)
        return self.answered(found, draws)

    def answered(self, found, draws):
        """The line that tells an outcome, and the status: whether it contradicts what is proved, or nothing was compared."""
        shown = self.row.answer.shown
        same = f"; of {report.plural(found.tried, 'value')} tried {found.compared} publish the same" if self.row.streams else ""
        if found.unequal:
            cycle, *two = found.unequal
            secrets = " and ".join(value.hex() for value in two)
            line = f"unequal in cycle {cycle}, with the secrets {secrets}, pair {found.pair} of those tried{', compared before' * found.is_old}{same}"
            return self.told(line), statuses.HOLDS if shown else statuses.REFUTED
        if not found.compared:
            rest = ", and there are no others" if self.is_whole(found.tried) else ": --draws N looks further"
            return self.told(f"nothing compared{same}{rest}"), statuses.CUT
        since = "" if found.before is None else f", {found.compared - found.before} of them compared now and {found.before} before"
        line = f"none of {report.plural(found.compared, 'value')} unequal{since}{same}"
        size = read_description(self.description).size
        rest = self.none_of(found.tried, min(draws, 256 ** sum(each.size for each in self.secret)), size) if shown else ""
        return self.told(line + rest), statuses.HOLDS

    def is_whole(self, count):
        """Whether so many values besides the secret's own are all there are."""
        return count >= 256 ** sum(each.size for each in self.secret) - 1

    def none_of(self, count, draws, size):
        """What it says of what shows that none of so many values has another trace."""
        if self.is_whole(count):
            return f", and there are no others{' that do' if self.row.streams else ''}: what shows is conservative"
        if self.row.streams:
            return ": what shows may be conservative, or is hardly ever met, and --draws N looks further"
        return f": what shows may be conservative, or is hardly ever met: of the {draws} drawn none is, so {drawing.odds(draws, size)}"


def drawings(asked, program, screen):
    """The runs that are over and asked for, and a line with its status for each that is asked for and has no answer; how long a pair goes on is told
    on a screen."""
    made = certifying.read(asked.folder, asked.public_stream)
    store = Store(made, certifying.Asks(made))
    names = [(name_of(made, run), run) for run in made.runs if not run.refused]
    asked_for = [(name, run) for name, run in names if asked.only in name and (asked.left_out is None or asked.left_out not in name)]
    found = [Drawing(made, run, program, store, screen) for _, run in asked_for if run.id in store.found]
    if not found:
        raise Fault(f"{asked.folder} has no answer of such a name: names are as `chacha20 gcc-O2 spectre`")
    return found, [(f"{name}: {store.why(run)}; skipped: `wadrelwy certify {asked.folder}` goes on", statuses.CUT)
                   for name, run in asked_for if run.id not in store.found]


def side_by_side_of(found, asked, record, folder):
    """The lines and statuses of these runs, pair by pair of all of them, with what the record has."""
    of_cells, begun = {}, []
    for number, each in enumerate(found):
        if each.skipped():
            yield each.told(f"skipped: {each.skipped()}"), statuses.CUT
            continue
        question = each.question(asked.draws, asked.seed, os.path.join(folder, str(number)))
        of_cells.setdefault(question.cell, []).append(each)
        if len(of_cells[question.cell]) == 1:
            os.mkdir(os.path.join(folder, str(number)))
            begun.append(side_by_side.Going(question, record.known(question.cell)))
    for going in side_by_side.ended(begun, asked.jobs, record):
        for each in of_cells[going.question.cell]:
            # a record may have more than is asked for now
            yield each.answered(outcome_of(going), asked.draws + max(0, going.tried - len(going.question.values)))


def outcome_of(going):
    """What came of a cell's pairs, of this call and of those before."""
    old = going.before.unequal
    found = Outcome(going.tried, going.compared, before=going.before.compared)
    if old:
        return found._replace(unequal=old.unequal, pair=old.last_pair, is_old=True)
    stretch = going.stretch()
    return found._replace(unequal=stretch.unequal, pair=stretch.last_pair) if stretch else found


def lines(asked, program):
    """The line and the status of each run."""
    if asked.record is None:
        found, missing = drawings(asked, program, sys.stderr)
        yield from missing
        with ThreadPoolExecutor(asked.jobs) as pool:
            yield from pool.map(lambda each: each.tried(asked.draws, asked.seed), found)
        return
    with stretches.Locked(asked.record), tempfile.TemporaryDirectory() as folder:
        record = stretches.Record(asked.record)
        # the rest of all cells is told, and not how long a pair goes on
        found, missing = drawings(asked, program, io.StringIO())
        yield from missing
        yield from side_by_side_of(found, asked, record, folder)


def main(asked):
    if asked.jobs < 1 or asked.draws < 1:
        raise Fault("jobs and draws are at least 1")
    if asked.record == "":
        raise Fault("--record names a file")
    program = built_programs.simulator(asked.program)
    if program is None:
        raise Fault("no simulator: build it (docs/using.md, \"Before you start\"), or name it with --program")
    found = [statuses.HOLDS]
    for line, status in lines(asked, program):
        print(line, flush=True)
        found.append(status)
        if status == statuses.REFUTED:
            print("wadrelwy draw: traces that are proved equal aren't: please report it", file=sys.stderr)
    return statuses.worst(found)
