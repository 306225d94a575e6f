"""A fetched instruction and what became of it, and lists of such by age."""
from operator import attrgetter

from wadrelwy.riscv.kinds import AT_ONCE, CONTROLS, DIVISION, LOAD, MULTIPLICATION, STORE

NEVER = 1 << 62
BY_AGE = attrgetter("serial")
# the parts of a store, by the names of their events
PARTS = ADDRESS_PART, DATA_PART = "agu", "std"
# the ports of the kinds that have one each, and of a store's parts; all others share those of arithmetic
PORTS = {LOAD: 1, STORE: 2, MULTIPLICATION: 3, DIVISION: 4, ADDRESS_PART: 5, DATA_PART: 6}
ARITHMETIC_PORTS = 0
# the event of an entry's issue by its kind, where it isn't `alu`
EVENT_OF = {LOAD: "ld", STORE: "agu", MULTIPLICATION: "mul", DIVISION: "div"}


class Wait:
    """Cycles in a row in which an instruction waited for one reason: that, and serial and address of the entry that it waited for, a
    negative serial where it is none. `last` is NEVER as long as it lasts until a writer is Done: its end is set then."""

    __slots__ = ("first", "last", "reason", "serial", "pc")

    def begin(self, cycle, reason, cause):
        """It begins."""
        self.first = self.last = cycle
        self.reason, self.serial, self.pc = reason, -1, 0
        if cause is not None:
            self.serial, self.pc = cause.serial, cause.pc


class Item:
    """A fetched instruction. Its times are numbers of cycles, and None where it didn't come to that.

    `unit` is how it issued: `alu`, `mul`, `div`, `agu`, or a load by its access: `hit`, `miss`, `join`, `second`, `forward`,
    `fault`; where it has two lines, by the one that comes later. `lines` are those of a load and `written` those of a store, each with
    the letter of how it was found. A store has issued once both of its parts have, in `address_at` and `data_at`, which are negative before that.
    `one` and `two` are the writers of its sources, or None, `from_one` and `from_two` the numbers of these, and `root_one` and `root_two` the
    youngest loads from which these values flow, or None; `youngest_root` is the younger of the two, the last
    of them to become visible, and `root` what flows on from here. `ready` is the first cycle in which
    it could have issued as far as its operands go; `open` is the wait that lasts until a writer is Done. Of a load `sharers` are the
    stores of which one kept it for its data, and
    `lacking_at` is the last cycle in which it surely lacked miss registers, and `lacking` how many of its lines then needed one; `passed` says
    whether an older store's address wasn't known as it issued, and `violated` whether it is dropped for that. `cleared` is when a store
    is cleared, where loads pass stores. `fill` is why it was renamed no earlier (`slots`). In this cycle it issues where it `goes`, a store's
    parts where `address_goes` and `data_goes`, and it is `waiting` as long as it hasn't. `value` is what another tool keeps of it
    (`verdict.values`). `serial` is negative until it is renamed.
    """

    __slots__ = ("number", "pc", "code", "kind", "serial", "fetched", "renamed", "ready", "issued", "unit", "due", "done", "resolved", "outcome",
                 "mispredicted", "retired", "squashed", "trapped", "lines", "written", "output", "one", "two", "awaits", "consumers",
                 "root_one", "root_two", "root", "youngest_root", "waits", "from_one", "from_two", "address_at", "data_at", "sharers",
                 "lacking_at", "lacking", "cleared", "passed", "violated", "open", "fill", "registers", "destination",
                 "is_load", "is_store", "is_control", "at_once", "port", "source_one", "source_two", "event", "divides", "is_return",
                 "waiting", "goes", "address_goes", "data_goes", "value")

    def __init__(self):
        self.serial = -1
        self.renamed = self.ready = self.issued = self.unit = self.due = self.done = self.resolved = self.outcome = None
        self.retired = self.squashed = self.trapped = self.output = self.cleared = None
        self.one = self.two = self.root_one = self.root_two = self.root = self.youngest_root = None
        self.open = self.fill = self.value = None
        self.mispredicted = self.passed = self.violated = self.waiting = self.goes = self.address_goes = self.data_goes = False
        self.lines = self.written = self.sharers = self.consumers = self.waits = ()
        self.awaits, self.address_at, self.data_at, self.from_one, self.from_two, self.lacking_at, self.lacking = 0, -1, -1, -1, -1, -1, 0

    def fetch(self, number, pc, cycle, code):
        """It is fetched."""
        self.number, self.pc, self.fetched, self.code = number, pc, cycle, code.instruction
        self.kind, self.registers, self.destination = code.kind, code.registers, code.destination
        self.is_load, self.is_store, self.is_control, self.at_once = code.is_load, code.is_store, code.is_control, code.at_once
        self.port, self.source_one, self.source_two = code.port, code.source_one, code.source_two
        self.event, self.divides, self.is_return = code.event, code.divides, code.is_return

    @property
    def gone(self):
        """The cycle in which it retired or was squashed."""
        return self.squashed if self.retired is None else self.retired

    @property
    def parts(self):
        """The cycles in which the parts of a store issued, by the names of their events."""
        return {name: cycle for name, cycle in zip(PARTS, (self.address_at, self.data_at)) if cycle >= 0}

    @property
    def sources(self):
        """The writers of its sources, as long as it is in flight."""
        return (self.one, self.two)[:len(self.registers)]

    @property
    def producers(self):
        """The numbers of the writers of its sources."""
        return [number for number in (self.from_one, self.from_two) if number >= 0]

    def add_source(self, writer):
        """One of its sources is what this entry writes."""
        root = writer.root
        if root is not None and (self.youngest_root is None or root.serial > self.youngest_root.serial):
            self.youngest_root = root
        if writer.done is None:
            writer.consumers = writer.consumers or []
            writer.consumers.append(self)
            self.awaits += 1

    def wait(self, cycle, reason, cause):
        """It waits in this cycle too, as before or for another reason."""
        last, serial = self.waits[-1] if self.waits else None, -1 if cause is None else cause.serial
        if last is not None and last.last == cycle - 1 and last.reason == reason and last.serial == serial:
            last.last = cycle
            return
        last = Wait()
        last.begin(cycle, reason, cause)
        if self.waits:
            self.waits.append(last)
        else:
            self.waits = [last]

    def sleep(self):
        """What it waits for in this cycle keeps it until a writer is Done."""
        self.open = self.waits[-1]
        self.open.last = NEVER

    def wake(self, cycle):
        """In this cycle it no longer waits as before; it didn't at all where it has only just been renamed."""
        self.open.last = cycle - 1
        self.open = None
        last = self.waits[-1]
        if last.last < last.first:
            self.waits.pop()

    def forget(self):
        """Lets go of the other items that it names, so that a long trace takes no memory."""
        self.consumers = self.sharers = ()
        self.one = self.two = self.root_one = self.root_two = self.root = self.youngest_root = None


class Code:
    """What items take over of the instruction at an address: `event` is that of its issue, `source_one` and `source_two` are the registers
    that it reads, negative where there are fewer."""

    __slots__ = ("source_one", "source_two", "instruction", "kind", "registers", "destination", "is_load", "is_store", "is_control", "at_once",
                 "port", "event", "divides", "is_return")

    def __init__(self, instruction):
        self.instruction = instruction
        self.kind, self.registers, self.destination = instruction
        self.source_one, self.source_two = (*self.registers, -1, -1)[:2]
        self.is_load, self.is_store = self.kind == LOAD, self.kind == STORE
        self.is_control, self.at_once = self.kind in CONTROLS, self.kind in AT_ONCE
        self.port, self.event = PORTS.get(self.kind, ARITHMETIC_PORTS), EVENT_OF.get(self.kind, "alu")
        self.divides, self.is_return = self.kind == DIVISION, instruction.is_return
