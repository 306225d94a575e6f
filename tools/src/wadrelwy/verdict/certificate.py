"""The verdict on one image and its secret bytes, as text."""
from typing import NamedTuple, Optional

from wadrelwy.view.description import Description, defence_beside, read_description
from wadrelwy.view.disassembly import CALLERS, Disassembler
from wadrelwy.view.trace import Trace

from . import answered, published, ranges, report, secrecy, touched, wrong_path
from .chain import Chain
from .loaded import Loaded, load
from .secrecy import Answer
from .simulator import Written
from .telling import Telling
from .touched import Touched
from .wrong_path import Fate, fate_of

# in a cycle, of any description (docs/formats.md, "Keys")
MOST_RETIRED = 4


class Case(NamedTuple):
    """An image under a description, its secret bytes as ranges, what the program says of them, and what the path does with them first; where all
    is asked for, what else may show, and by which instructions what shows first was made of the bytes; the public streams, and what was
    published, where the program says how much. Of a run of the instruction set the description gives memory alone, and may be none."""
    description: Optional[str]
    machine: Optional[Description]
    image: Loaded
    secret: list
    answer: Answer
    touched: Touched
    fate: Optional[Fate] = None
    all: Optional[dict] = None
    chain: Optional[Chain] = None
    streams: tuple = ()
    published: Optional[bytes] = None

    def word(self):
        return answered.word(self.answer, self.touched)

    def status(self):
        return answered.status(self.answer, self.touched)


def case_of(program, asked, simulator=None):
    """What the program says of an image's secrets, by the words of the command. The simulator, if there is one, tells whether what shows is of
    the path; and where all is asked for, what else may show."""
    description, image, cycles, streams = asked.description, asked.one, asked.cycles, tuple(asked.public_stream)
    machine = read_description(description)
    loaded = load(image, machine)
    secret = [ranges.named(loaded, word) for word in asked.secret]
    answer = secrecy.ask(program, (description, image), secret, cycles, streams)
    found = touched.look(loaded, secret, steps_of(answer))
    fate = fate_of(simulator, description, image, answer.shown, cycles) if simulator and answer.shown else None
    case = Case(description, machine, loaded, secret, answer, found, fate, streams=streams, published=published.of_answer(loaded, streams, answer))
    if not asked.all:
        return case
    telling = all_of(simulator, case, cycles)
    return case._replace(all=telling.shown, chain=telling.chain)


def case_of_path(program, asked):
    """What the program says of an image's secrets in its run of the instruction set, by the words of the command."""
    image, streams = asked.one, tuple(asked.public_stream)
    machine = read_description(asked.desc) if asked.desc else None
    loaded = load(image, machine)
    secret = [ranges.named(loaded, word) for word in asked.secret]
    answer = secrecy.ask_path(program, image, secret, asked.steps, streams, asked.desc)
    found = touched.look(loaded, secret, steps_of(answer))
    return Case(asked.desc, machine, loaded, secret, answer, found, streams=streams, published=published.of_answer(loaded, streams, answer))


def all_of(simulator, case, cycles):
    """All instructions that take effect on a value made of these bytes, by the marks of this tool, and how what shows first was made of them."""
    lines = Written(simulator, "trace", case.description, case.image.name, "--cycles", str(cycles))
    marks, shown = [address for each in case.secret for address in each.addresses], case.answer.shown
    return Telling(Trace(lines), case.image, case.machine, marks, thorough=False, watched=shown.serial if shown else -1)


def steps_of(answer):
    """How many steps of the path belong to the run that was looked at: where something shows in a core's run, at most all that a core of this
    kind retires up to there."""
    if answer.shown is None:
        return answer.end.retired
    return answer.shown.step if answer.of_path else answer.shown.cycle * MOST_RETIRED


def told_run(case):
    """What is asked of: a core, by its description; or the cores that delay, by the memory that they have."""
    if not case.answer.of_path:
        return "description", f"{case.description}, model {case.machine.model}{defence_beside(case.machine.model, case.machine.defence)}"
    memory, rule = case.image, ", any address" if case.image.misaligned else ""
    place = f"memory {memory.base:08x} to {memory.base + len(memory.memory) - 1:08x}{rule}"
    return "cores", f"all that delay, {place}, " + (f"as {case.description} has it" if case.description else "as isa has it without a description")


def looked_at(answer):
    """How the run ended, or how far it was looked at."""
    if answer.end:
        return answer.end.text
    unit, count = ("step", answer.shown.step) if answer.of_path else ("cycle", answer.shown.cycle)
    return f"looked at up to {unit} {count}, in which something shows"


def lines(case, notation=CALLERS):
    """The whole verdict, a line each."""
    shown = case.answer.shown
    yield report.row(*told_run(case))
    yield report.row("image", case.image.name)
    for number, each in enumerate(case.secret):
        yield report.row("" if number else "secret", told(case.image, each))
    if case.streams:
        yield report.row("public", published.told_streams(case.streams))
    yield report.row("path", touched.told(case.touched))
    yield report.row("run", looked_at(case.answer))
    if case.published is not None:
        yield report.row("published", published.told(case.published))
    texts = Disassembler(case.image, notation)
    yield report.row("shown", secrecy.place(shown, texts) if shown else "nothing that may depend on these bytes")
    if case.fate is not None:
        yield report.row("", wrong_path.sentence(case.fate, texts))
    yield from made(case, texts)
    yield from listed(case, texts)
    goes_on = ", of a run that goes on" if case.answer.is_cut else ""
    yield report.row("verdict", f"{case.word()}{goes_on}: {answered.meaning(case.answer, case.touched)}")


def made(case, texts):
    """How what shows first was made of a secret byte: one instruction after the other, from the load on."""
    chain = case.chain
    if chain is None:
        return
    left = chain.length - len(chain.last)
    yield report.row("made", f"of {case.image.named(chain.byte)}, by {report.plural(chain.length, 'instruction')}{', the last of which are' * bool(left)}")
    for pc in chain.last:
        yield report.row("", texts.place(pc))


def listed(case, texts):
    """All that may show, along the path and on wrong ones, as a list of which nothing is proved."""
    for number, ((pc, what), shown) in enumerate(case.all.items() if case.all is not None else ()):
        where = "on the path" if shown.retired == shown.times else "on wrong paths" if not shown.retired else f"{shown.retired} on the path"
        yield report.row("" if number else "list",
                         f"{texts.place(pc)}: its {what}, {report.plural(shown.times, 'time')}, first in cycle {shown.cycle}, {where}")
    if case.all is not None:
        yield report.row("" if case.all else "list", f"{report.plural(len(case.all), 'instruction')}, by marks on whole values: a list without a "
                                                     f"claim, of what may be no secret, and not proved to be all" +
                         ("; what is published keeps its mark here" if case.streams else ""))


def told(image, secret):
    """A range with its symbols: `16 bytes, 00010080 <key> to 0001008f <key+0xf>`."""
    [place] = report.groups(image, secret.addresses)
    return f"{report.plural(secret.size, 'byte')}, {place}"
