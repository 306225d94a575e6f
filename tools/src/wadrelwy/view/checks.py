"""Whether what happens is what the machine's rules ask for: when lines come, when results are there, what loads find."""
from wadrelwy.riscv.kinds import BRANCH, CALL, JALR, STOP, STORE

from .items import BY_AGE, DATA_PART
from .pipeline import PREFETCH, is_wide, lines_of
from .rows import Event, text_of

# the letters of a line that takes a miss register
TAKES = ("m", "2")
# the cycles that a division takes, and what a counter is at first (docs/machine.md, "The time of a division" and "State")
LEAST_TIME, MOST_TIME, COUNTER = 3, 35, 1
# the last seven bits of a JAL, and an EBREAK
JAL, EBREAK = 0x6F, 0x00100073


class Checks:
    """Compares the events of a phase with the rules of docs/machine.md; `tell` gets what differs."""

    def __init__(self, pipeline, tell):
        self.pipeline, self.tell = pipeline, tell
        self.due, self.counters, description = {}, {}, pipeline.description
        self.base, self.behind = description.base, description.base + description.size
        self.line, self.misaligned, self.mshrs, self.prefetches = description.line, description.misaligned, description.mshrs, description.prefetch

    def fill(self, lines):
        """A line comes in the cycle that its miss was told, and only then."""
        due = self.pipeline.dues.pop(self.pipeline.cycle, [])
        if lines != due:
            self.tell(f"lines {names(lines)} come, {names(due)} are due")

    def complete(self, items):
        """An entry is Done in the cycle that its issue told, unless it was squashed; oldest first."""
        due = self.due.pop(self.pipeline.cycle, [])
        if items != due:
            due = sorted([item for item in due if item.squashed is None], key=BY_AGE)
        if items != due:
            self.tell(f"entries {[item.serial for item in items]} are done, {[item.serial for item in due]} are due")

    def resolve(self, item, events):
        """A branch is taken or not and teaches a counter, a JALR its target unless it faults, and then it drops what is younger."""
        names_told, learns = [event.name for event in events], "bp" if item.kind == BRANCH else "bt"
        right = [["res", learns], ["res", learns, "sq"]] + ([["res", "sq"]] if learns == "bt" else [])
        if names_told not in right or (events[0].text == "J") != (item.kind == JALR):
            self.tell(f"entry {item.serial}, a {item.code.kind}, is resolved with the events {' '.join(map(text_of, events))}")
        elif learns == "bp":
            self.learn(item, events[0].text == "T", events[1])

    def learn(self, item, taken, event):
        """The counter of a branch goes up to at most 3 where it is taken, else down to at least 0."""
        before = self.counters.get(event.number, COUNTER)
        right = min(before + 1, 3) if taken else max(before - 1, 0)
        if event.text != str(right):
            self.tell(f"branch {item.serial} leaves counter {event.number} at {event.text}, where {right} is right")
        self.counters[event.number] = right

    def clear(self, store, events):
        """A store is cleared, and where the oldest younger load that passed it shares a byte with it, that load is violated: its bit is
        set, and it goes with all that is younger."""
        names_told = [event.name for event in events]
        if store.code.kind != STORE or names_told not in (["clr"], ["clr", "vio", "dp", "sq"]):
            self.tell(f"entry {store.serial}, a {store.code.kind}, is cleared with the events {' '.join(names_told)}")
            return
        violated = self.pipeline.entry(events[1]) if events[1:] else None
        passed = [load for load in self.pipeline.window if load.serial > store.serial and self.passed(load, store)]
        shares = [self.pipeline.shares(load, store) for load in passed]
        certain = next((load for load, shared in zip(passed, shares) if shared), None)
        likely = [load for load, shared in zip(passed, shares) if shared is None] + [certain]
        if violated not in [*likely, None] or violated is None and certain is not None:
            told = "none is" if violated is None else f"load {violated.serial} is"
            right = ", ".join(f"load {load.serial}" for load in likely if load is not None) or "none"
            self.tell(f"store {store.serial} is cleared and {told} violated, where {right} may be")
        if violated is not None and self.pipeline.description.depend:
            right = Event("dp", self.pipeline.bit_of(violated), 1)
            if text_of(events[2]) != text_of(right):
                self.tell(f"load {violated.serial} is violated with {text_of(events[2])}, where {text_of(right)} is right")

    @staticmethod
    def passed(load, store):
        """It is a load without fault that issued before the store's address was known."""
        known = load.is_load and load.issued is not None and load.unit != "fault"
        return known and load.issued <= store.address_at

    def retired(self, item):
        """A store tells what it finds in the cache, a call how much it puts out."""
        store = item.is_store
        if bool(item.written) != store or (item.output is None) == (item.kind == CALL):
            self.tell(f"entry {item.serial}, a {item.code.kind}, retires with the events of another kind")
        if store:
            self.lines(item, item.written)
        if item.unit == "fault":
            self.tell(f"load {item.serial} retires, and it faults")

    def ends(self, how, retired):
        """A run ends by an exit, which is a call that retires alone and puts nothing out, or by a trap of the oldest entry."""
        head, last = self.pipeline.window[0] if self.pipeline.window else None, retired[-1] if retired else None
        if how.startswith("exit"):
            right = last is not None and last.kind == CALL and last.output == 0
        else:
            right = head is not None and how in [f"trap {cause} {head.pc:08x}" for cause in self.causes(head)]
        if not right:
            self.tell(f"the run ends by `{how}`, which is neither an exit of the call that retires last nor a trap of the oldest entry")

    def causes(self, head):
        """The causes with which this entry may trap, as far as the trace tells it (docs/instruction-set.md, "Traps"); none where it can't yet."""
        if head.kind == STOP:
            word = self.pipeline.image.words.get(head.pc)
            return [1] if word is None else [3] if word == EBREAK else [0] if word & 0x7F == JAL else [2]
        if head.is_control:
            return [0] if head.resolved is not None else []
        if head.done is None:
            return []
        return [6, 7] if head.is_store else [4, 5] if head.unit == "fault" else []

    def end(self, end, retired):
        """The last line counts the cycles and what retired."""
        if end and (end.cycles != self.pipeline.cycle or end.retired != retired):
            self.tell(f"the last line tells of {end.retired} retired in {end.cycles} cycles, and {retired} did in {self.pipeline.cycle}")

    def issued(self, item):
        """Remembers when the entry will be done: a store once both of its parts have issued."""
        if item.issued is not None:
            due = self.due.get(item.due)
            if due is None:
                self.due[item.due] = [item]
            else:
                due.append(item)

    def order(self, steps):
        """Entries issue oldest first, the address part of a store before its data part."""
        last = -1
        for event in steps:
            place = 2 * event.number + (event.name == DATA_PART)
            if place < last:
                self.tell(f"the events of Issue don't go from the oldest entry on: {' '.join(map(text, steps))}")
                return
            last = place

    def access(self, item, event):
        """What a load finds: each of its lines is in the cache, on its way, or neither, and then a register is free.

        A load is wholly forwarded only where no older store has a tainted address. One that had too few registers in the cycle
        before finds as many lines neither in the cache nor on their way.
        """
        answer, pipeline, lines = event.text, self.pipeline, lines_of(event)
        if answer == "x" and item.sharers:
            self.tell(f"load {item.serial} faults, but waited for a store's data, and a load that faults has no bytes")
        if answer == "f":
            stores = self.older_stores(item)
            hidden = self.first_hidden(stores)
            if hidden or not any([store.issued is not None for store in stores]):
                self.tell(f"load {item.serial} is forwarded, but " + (f"store {hidden.serial} has a tainted address" if hidden
                                                                        else "no older store has its address and its data"))
        taken = 0
        for line, found in lines:
            taken += found == "m" or found == "2"
        if answer != "f" and item.lacking_at == pipeline.cycle - 1 and taken < item.lacking:
            self.tell(f"load {item.serial}: `{text(event)}`, but in the cycle before it waited for " + register_names(item.lacking))
        self.finds(item, lines)
        if len(pipeline.misses) + taken > self.mshrs:
            self.tell(f"load {item.serial} takes {register_names(taken)}, and there are too few")
        self.lines(item, lines)
        if taken and self.prefetches or event.rest:
            self.prefetch(item, event, lines, taken)

    def finds(self, item, lines):
        """Each line of a load is where it says."""
        for line, answer in lines:
            found = self.found(line)
            if found != answer:
                self.tell(f"load {item.serial}: `{answer}` for line {line:08x}, where `{found}` is right")

    def first_hidden(self, stores):
        """The first of these stores whose address is tainted, or none."""
        for store in stores:
            if self.pipeline.is_hidden(store.root_one):
                return store
        return None

    def found(self, line):
        """How a load finds a line."""
        if self.pipeline.cache.has(line):
            return "h"
        return "j" if line in self.pipeline.misses else "2" if self.pipeline.second.has(line) else "m"

    def lines(self, item, lines):
        """An access has one line, which has bytes of memory; where it may have any address one of several bytes may have two, the lower first."""
        size, right = self.line, len(lines) < 2 or len(lines) == 2 and self.misaligned > 0 and is_wide(self.pipeline.image.words.get(item.pc))
        for place in range(len(lines)):
            line = lines[place][0]
            right = right and line % size == 0 and self.base < line + size and line < self.behind
            right = right and (place == 0 or line == lines[place - 1][0] + size)
        if not right:
            self.tell(f"{item.code.kind} {item.serial} accesses the lines {names([line for line, _ in lines])}")

    def prefetch(self, item, event, lines, taken):
        """The line behind a load's is prefetched where the load takes a register, the line begins in memory, it is neither in the cache
        nor on its way, and a register is left."""
        pipeline, description = self.pipeline, self.pipeline.description
        told, expected = "nothing", "nothing"
        if event.rest and event.rest[-1].name == PREFETCH:
            told = text_of(event.rest[-1])
        if description.prefetch and taken:
            line = lines[-1][0] + description.line
            found, left = self.found(line), self.mshrs - len(pipeline.misses) - taken
            if line < description.base + description.size and found in TAKES and left > 0:
                expected = text_of(Event(PREFETCH, line, text=found))
        if told != expected:
            self.tell(f"load {item.serial} prefetches {told}, where {expected} is right")

    def older_stores(self, item):
        found = []
        for store in self.pipeline.window if self.pipeline.stores else ():
            if store.serial >= item.serial:
                break
            if store.is_store:
                found.append(store)
        return found

    def write(self, item, line, answer):
        """A store's line is in the cache or not."""
        if (answer == "h") != self.pipeline.cache.has(line):
            self.tell(f"store {item.serial}: `{answer}` for line {line:08x} is wrong")

    def unit(self, item, name):
        """The event of an entry's issue is that of its kind. The data part of a store has one in version 2 alone."""
        if name != item.event and (name, item.kind, self.pipeline.description.version) != (DATA_PART, STORE, 2):
            self.tell(f"entry {item.serial}: `{name}` for a {item.kind}")

    def division(self, item, time):
        """A division takes 3 cycles, and one for each binary digit of its dividend."""
        if not LEAST_TIME <= time <= MOST_TIME:
            self.tell(f"division {item.serial} takes {time} cycles, where {LEAST_TIME} to {MOST_TIME} are right")

    def squash(self, told, dropped):
        if told != dropped:
            self.tell(f"{told} entries and items are said to be dropped, {dropped} are")


def text(event):
    """The text of an event with those that belong to it."""
    return " ".join(map(text_of, [event, *event.rest]))


def register_names(number):
    return "a miss register" if number == 1 else f"{number} miss registers"


def names(lines):
    return "[" + ", ".join(f"{line:08x}" for line in lines) + "]"
