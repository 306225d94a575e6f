"""The verdict on two images, as text."""
from typing import NamedTuple

from wadrelwy import statuses
from wadrelwy.view import difference
from wadrelwy.view.description import OFF, Description, defence_beside
from wadrelwy.view.disassembly import CALLERS, Disassembler
from wadrelwy.view.replay import Replay
from wadrelwy.view.trace import Trace

from . import answered
from .loaded import Loaded
from .premises import Premises
from .simulator import Pair
from .secrecy import NOT_ASKED, Asked, place
from .telling import Telling

WIDTH = 14
MOST_LINES = 6

STATUS = {"hidden": statuses.HOLDS, "differs": statuses.SHOWS, "vacuous": statuses.VACUOUS, "same": statuses.SAME, "refuted": statuses.REFUTED,
          "leaks": statuses.SHOWS, "certified": statuses.HOLDS, "exposed": statuses.SHOWS}
MEANING = {
    "hidden": "the traces are equal, and proved to be for every two images of this code whose memories agree on what the path loads; "
              "what would have told them apart was held",
    "differs": "the traces aren't equal, and nothing promises that they are",
    "vacuous": "the traces are equal, and proved to be; but this shows nothing of the defence: nothing that shows its operand ever had "
               "one made of the bytes that differ",
    "same": "the traces of these two images are equal; nothing promises that those of others are",
    "certified": "the traces are equal, and proved to be for every value of the bytes that differ",
    "exposed": "the traces of these two images are equal, but something shows that may depend on the bytes that differ: those of others may "
               "not be",
    "refuted": "the traces are proved equal, and aren't. This contradicts what is proved: please report it",
    "leaks": "the traces aren't equal, though the path loads nothing that differs: under the model `off` an attack shows it, and nothing "
             "promises that it doesn't",
}


class Case(NamedTuple):
    """Two images under a description: their comparison, their premises, what the first one's trace tells, and whether its run certifies
    the bytes that differ."""
    description: str
    machine: Description
    one: Loaded
    two: Loaded
    pair: Pair
    premises: Premises
    telling: Telling
    asked: Asked = NOT_ASKED

    @property
    def met(self):
        """Whether the premises are met, as the simulator says; the reasons are those of this tool."""
        return self.pair.premise

    @property
    def promised(self):
        """Whether the traces are proved equal: the premises are met, and the model protects."""
        return self.met and self.machine.model != OFF

    def word(self):
        """The verdict in one word."""
        answer = self.asked.answer
        if self.pair.unequal is not None:
            certified = answer is not None and answer.shown is None
            return "refuted" if self.promised or certified else "leaks" if self.met else "differs"
        if self.promised:
            return "hidden" if self.telling.held else "vacuous"
        return "same" if answer is None else "exposed" if answer.shown else "certified"

    def status(self):
        """That of the word; what is told of runs that their budget ended is told of their first cycles alone."""
        word = self.word()
        certified = answered.status(self.asked.answer, None) if word == "certified" else statuses.HOLDS
        cut = statuses.CUT if self.pair.is_cut and STATUS[word] not in (statuses.SHOWS, statuses.REFUTED) else statuses.HOLDS
        return statuses.worst([STATUS[word], certified, cut])


def lines(case, notation=CALLERS):
    """The whole verdict, a line each."""
    texts = [Disassembler(image, notation) for image in (case.one, case.two)]
    yield row("description", f"{case.description}, model {case.machine.model}{defence_beside(case.machine.model, case.machine.defence)}")
    yield row("A", f"{case.one.name}: {case.pair.ends[0].text}")
    yield row("B", f"{case.two.name}: {case.pair.ends[1].text}")
    yield row("memory", differing(case.one, case.premises.memory))
    yield row("code", code(case))
    yield from path(case, texts[0])
    yield row("premises", "not met" if not case.met else "met" if case.promised else "met, and the model off promises nothing")
    yield from traces(case, texts)
    yield row("one run", one_run(case.asked, texts[0]))
    yield from transmitters(case.telling, texts[0])
    yield row("verdict", f"{case.word()}{within(case)}: {MEANING[case.word()]}")


def within(case):
    """Of how much of the runs the verdict speaks, where it isn't the whole."""
    if case.pair.is_cut:
        return f", in the first {plural(max(end.cycles for end in case.pair.ends), 'cycle')}, of runs that go on"
    return answered.how_far(case.asked.answer.end) if case.word() == "certified" else ""


def row(name, text):
    return f"{name:{WIDTH}}{text}"


def limited(rows):
    """The first of these lines, and how many more there are."""
    rows = list(rows)
    yield from rows[:MOST_LINES]
    if len(rows) > MOST_LINES:
        yield row("", f"and {len(rows) - MOST_LINES} more")


def plural(number, noun):
    return f"{number} {noun}" if number == 1 else f"{number} {noun}s"


def groups(image, addresses):
    """Sorted addresses as runs of bytes behind one another, each a first and a last one."""
    runs = []
    for address in addresses:
        if runs and runs[-1][1] + 1 == address:
            runs[-1][1] = address
        else:
            runs.append([address, address])
    return [image.named(a) if a == b else f"{image.named(a)} to {image.named(b)}" for a, b in runs]


def shortened(texts, most=4):
    return ", ".join(texts[:most]) + (f" and {len(texts) - most} more" if len(texts) > most else "")


def differing(image, addresses):
    if not addresses:
        return "equal"
    return f"{plural(len(addresses), 'byte')} differ{'s' if len(addresses) == 1 else ''}: {shortened(groups(image, addresses))}"


def code(case):
    if not case.premises.one_entry:
        return f"the entries differ: {case.one.entry:08x} and {case.two.entry:08x}"
    words = [case.one.named(address) for address in case.premises.code]
    if not words:
        return "equal"
    return (f"{plural(len(words), 'word')} differ{'s' if len(words) == 1 else ''}: {shortened(words)}. All of an executable segment is "
            f"code, its constants too: the promise is about images of one code")


def path(case, texts):
    walked, shown = case.premises.path, case.premises.shown
    ended = "goes on" if walked.end is None else "ends by " + " ".join(str(part) for part in walked.end[:2])
    differ = "none of them differs" if not shown else f"{len(shown)} of them differ{'s' if len(shown) == 1 else ''}:"
    yield row("path", f"{plural(walked.steps, 'step')}, {ended}; {plural(len(walked.loads), 'byte')} loaded, {differ}")
    by_load = {}
    for address, pc in shown.items():
        by_load.setdefault(pc, []).append(address)
    yield from limited(row("", f"{shortened(groups(case.one, addresses))} first by {texts.place(pc)}")
                       for pc, addresses in by_load.items())


def traces(case, texts):
    """Whether the traces are equal, else their first unequal cycle."""
    if case.pair.unequal is None:
        first = "the first " if case.pair.is_cut else ""
        yield row("traces", f"equal in {first}{plural(case.pair.ends[0].cycles, 'cycle')}")
        return
    both = [Trace(case.pair.one), Trace(case.pair.two)]
    replays = [Replay(trace, image, case.machine) for trace, image in zip(both, (case.one, case.two))]
    first, *others = (line.strip() for line in difference.lines_of(difference.Difference(both, replays), texts))
    yield row("traces", first)
    for side in "AB":
        only = [other for other in others if other.startswith((f"only {side}", side))]
        yield from limited(row("", other) for other in only)


def transmitters(telling, texts):
    """What was held on the differing bytes, and what showed them."""
    yield from limited(row("held", f"{texts.place(pc)}: its {what}, {plural(held.times, 'time')}, "
                                   f"{plural(held.cycles, 'cycle')}, {afterwards(held)}")
                       for (pc, what), held in telling.held.items())
    if not telling.held:
        yield row("held", "nothing on an operand made of the bytes that differ" + wrong_loads(telling))
    yield from limited(row("shown", f"{texts.place(pc)}: its {what}, {plural(shown.times, 'time')}, first in cycle {shown.cycle}")
                       for (pc, what), shown in telling.shown.items())


def one_run(asked, texts):
    """Whether the first one's run certifies the bytes that differ, taken as secret."""
    if asked.answer is None:
        return f"not asked about the bytes that differ: {asked.why}"
    if asked.answer.shown:
        return f"shows what may depend on the bytes that differ: {place(asked.answer.shown, texts)}"
    return "shows nothing that may depend on the bytes that differ"


def afterwards(held):
    """What became of the entries that were held."""
    in_flight = held.times - held.dropped - held.retired
    counts = [(held.dropped, "dropped"), (held.retired, "let go on"), (in_flight, "in flight at the end")]
    told = [(number, text) for number, text in counts if number]
    return "then " + (told[0][1] if len(told) == 1 else ", ".join(f"{number} {text}" for number, text in told))


def wrong_loads(telling):
    """How far wrong paths came, where nothing was held."""
    times = sum(telling.wrong_loads.values())
    if not times:
        return "; no wrong path loaded them"
    return f"; wrong paths loaded them {plural(times, 'time')}, and the value came {plural(telling.wrong_values, 'time')} before all was dropped"
