"""What a trace tells of the bytes that differ between two images: which instructions would have shown them and were held, and which
showed them.

What may show an operand is a load's access, a division's time, where a branch or JALR goes, the line that a store writes, and
whether a load gets its bytes from a store. Where the operand is tainted the instruction waits; and a load behind a store of a tainted
address goes to the cache whether the store covers it or not, or waits as long as the store has no data; and a store that loads passed
isn't cleared (docs/machine.md). An equal pair of traces is telling where something was held on an operand made of the differing bytes,
or a load of these bytes was, and by taint alone; else it is vacuous. Under the defence `hold` the same is asked of what waits for nothing
but results of loads that are held back; under `delay` of what waits for nothing but to be visible, whatever its operands are."""
from collections import Counter, namedtuple

from wadrelwy.riscv.kinds import BRANCH, CALL, DIVISION, JALR, LOAD, STORE
from wadrelwy.view.description import DELAY, HOLD
from wadrelwy.view.reasons import STORE_TAINT, Reasons
from wadrelwy.view.replay import Replay

from .hart import EXITS, WRITE
from .values import Valued

SHOWS = {LOAD: "access", DIVISION: "time", BRANCH: "direction", JALR: "target", STORE: "line", CALL: "registers"}
BEFORE_A_LOAD, CLEARING, LOAD_OF_THEM = "address before a load", "clearing", "load of these bytes"
A0, A1, A2, A7 = 10, 11, 12, 17


def arguments(number):
    """The registers that a system call of this number looks at."""
    return [A7, A0] if number in EXITS else [A7, A0, A1, A2] if number == WRITE else [A7]


class Held:
    """An instruction that was held by taint on the differing bytes: how many entries, for how many cycles in all, and how many of these
    entries were dropped and how many retired."""

    def __init__(self):
        self.times = self.cycles = self.dropped = self.retired = 0


class Shown(namedtuple("Shown", "times cycle retired", defaults=(0,))):
    """An instruction that took effect on an operand made of the differing bytes: how often, first in which cycle, and how many of these entries
    retired."""

    __slots__ = ()


class Telling(Replay):
    """`differs` says whether any byte does: else nothing is marked. `held` and `shown`, by an instruction's address and what of it shows;
    `wrong_loads` are the loads of differing bytes on wrong paths, by
    their addresses, and `wrong_values` how many of their values came. `holding` are the entries in flight that were held, by their serials,
    each with what it is counted in, `showing` those that showed something, and `loads` the serials of the loads of these bytes in flight. `chain`
    is by which instructions what the entry `watched` shows was made of the bytes. Values are compared with what the trace tells in any case; only where it is `thorough` also all that tools/src/wadrelwy/view checks of a trace, and the reason of each wait. `rules`
    are the rules of docs/machine.md by which a load waits for stores."""

    def __init__(self, trace, image, description, differing, thorough=True, watched=-1):
        self.valued, self.differs = Valued(image, description, differing), len(differing) > 0
        super().__init__(trace, image, description, self.valued, asked=thorough)
        self.rules, self.thorough = Reasons(self.pipeline), thorough
        self.held, self.shown, self.wrong_loads, self.wrong_values = {}, {}, Counter(), 0
        self.showing, self.watched, self.chain = {}, watched, None
        self.holding, self.loads, self.held_now, self.was_empty, self.skips = {}, set(), [], False, False
        self.only_counts()
        for batch in self.batches():
            for item in batch if self.differs else ():
                self.went(item)

    def step(self, row):
        """One cycle. Behind a cycle without events another one changes nothing, and holds what that one held (docs/machine.md, "Cycles in
        which nothing happens")."""
        if self.was_empty and row.empty and not row.ends and not self.thorough:
            self.pipeline.begin(row.cycle)
            for held in self.held_now:
                held.cycles += 1
            return
        self.held_now = []
        Replay.step(self, row)
        if not self.thorough:
            self.pipeline.awake.clear()
        self.was_empty = row.empty

    def went(self, item):
        """Counts what became of an entry that was held, or loaded the differing bytes."""
        for held in self.holding.pop(item.serial, ()):
            held.dropped += item.squashed is not None
            held.retired += item.retired is not None
        for key in self.showing.pop(item.serial, ()):
            times, first, retired = self.shown[key]
            self.shown[key] = Shown(times, first, retired + (item.retired is not None))
        if item.serial in self.loads:
            self.loads.remove(item.serial)
            if item.squashed is not None:
                self.wrong_loads[item.pc] += 1
                self.wrong_values += item.done is not None

    def hidden(self, item):
        """Whether a source is made of the differing bytes, and tainted; under `delay` made of them, and the entry isn't visible."""
        if self.rules.delays:
            value = item.value
            return value.is_marked() and self.pipeline.is_hidden(item)
        if item.youngest_root is None or not self.pipeline.is_hidden(item.youngest_root):
            return False
        value = item.value
        if self.hidden_base(item):
            return True
        return value.two is not None and value.two.mark and self.pipeline.is_hidden(item.root_two)

    def hidden_base(self, item):
        """Whether the first source is."""
        value = item.value
        return value.one is not None and value.one.mark and self.pipeline.is_hidden(item.root_one)

    def nothing_is_hidden(self):
        """Whether no byte differs, or everything in flight is visible: then nothing is held by taint, nor held back."""
        if not self.differs or not self.pipeline.window or not self.pipeline.shadows:
            return True
        first, last = self.pipeline.shadows[0], self.pipeline.window[-1]
        return first.serial >= last.serial

    # ---- Phases

    def resolve(self, events):
        hidden = [] if self.nothing_is_hidden() else [item for item in self.pipeline.controls if self.hidden(item)]
        if events and self.differs:
            item = self.pipeline.entry(events[0])
            value = item.value
            self.shows(item, value.is_marked())
        squashed = Replay.resolve(self, events)
        for item in hidden:
            if item.done is not None and item.resolved is None and item.squashed is None:
                self.holds(item, SHOWS[item.kind])
        return squashed

    def clear(self, events):
        stores = []
        if self.differs:
            stores = [item for item in self.pipeline.clearable if item.issued is not None and self.hidden_base(item)]
        if events and self.differs:
            store = self.pipeline.entry(events[0])
            value = store.value
            self.shows(store, value.one is not None and value.one.mark, CLEARING)
        violated = Replay.clear(self, events)
        for store in stores:
            self.holds(store, CLEARING)
        return violated

    def retire(self, events, ends):
        for event in events if self.differs else ():
            if event.name != "ret":
                continue
            item = self.pipeline.entry(event)
            if item.kind == CALL:
                registers = arguments(self.valued.registers[A7])
                self.shows(item, any([self.valued.marked_registers[register] for register in registers]))
            elif item.is_store:
                value = item.value
                self.shows(item, value.one.mark)
        Replay.retire(self, events, ends)

    def issue(self, events):
        before = None if self.nothing_is_hidden() else self.before_issue()
        for event in self.steps(events) if self.differs else ():
            item = self.pipeline.entry(event)
            value = item.value
            if item.is_load:
                self.load(item, event.second >= 0)
            elif item.kind == DIVISION:
                self.shows(item, value.is_marked())
        Replay.issue(self, events)
        if before is not None:
            self.after_issue(before)

    def before_issue(self):
        """What is held in this cycle unless it issues: entries with a hidden operand, and loads that reach the bytes, but for those that stores
        keep anyway; and each load that waits for a store of hidden address, with that store."""
        pipeline = self.pipeline
        ready = self.ready()
        hidden = [item for item in ready if self.hidden(item)] if not self.rules.delays else []
        reaching = [item for item in ready if self.reaches(item) and item not in hidden]
        held = [item for item in hidden + reaching if (item.is_load or item.kind == DIVISION) and not self.uses_what_is_held_back(item)
                and not self.is_kept(item)]
        stores = {store.serial for store in pipeline.open_stores if self.hidden_base(store)}
        loads = [item for item in ready if item.is_load] if stores else []
        behind = [(load, store) for load in loads for store in [self.awaited_store(load)] if store is not None and store.serial in stores]
        return set(hidden), held, behind

    def ready(self):
        """The entries that haven't issued and wait for no writer: loads, and what flows from loads."""
        found = []
        for item in self.pipeline.window:
            if item.waiting and not item.awaits and (item.youngest_root is not None or item.is_load):
                found.append(item)
        return found

    def reaches(self, item):
        """Whether it is a load of hidden address that would load one of these bytes."""
        return item.is_load and self.pipeline.is_hidden(item.root_one) and self.valued.loads_marked(item)

    def awaited_store(self, load):
        """The store of hidden address without data for which this load waits, and for nothing before that."""
        if self.pipeline.is_hidden(load.youngest_root) or self.uses_what_is_held_back(load):
            return None
        return self.rules.cause if self.rules.behind_stores(load) == STORE_TAINT else None

    def uses_what_is_held_back(self, item):
        return self.rules.held_back(item) is not None

    def after_issue(self, before):
        """Counts what of it was held."""
        hidden, held, behind = before
        for item in held:
            if item.issued is None:
                self.holds(item, SHOWS[item.kind] if item in hidden else LOAD_OF_THEM)
        if self.pipeline.description.defence in (HOLD, DELAY):
            self.hold_back()
        for store in {store.serial: store for load, store in behind if load.issued is None}.values():
            self.holds(store, BEFORE_A_LOAD)

    def is_kept(self, item):
        """It is a load that older stores would keep, were nothing tainted."""
        return item.is_load and self.rules.behind_stores(item, False) is not None

    def hold_back(self):
        """Counts what would show the bytes, and waits for results that are held back, or to be visible, and for nothing else."""
        for item in self.pipeline.window:
            if item.waiting and item.kind in SHOWS and self.is_held_back(item) and not self.is_kept(item):
                what = self.would_show(item, [self.valued.prospect(source) for source in item.value.sources])
                if what is not None:
                    self.holds(item, what)

    def would_show(self, item, sources):
        """What an instruction would show of the bytes with these operands, of which one is none where it can't be told yet."""
        if item.is_store:
            loads = any(load.is_load and load.serial > item.serial for load in self.pipeline.window)
            return BEFORE_A_LOAD if loads and sources[0] is not None and sources[0].mark else None
        if None in sources:
            return None
        if any(source.mark for source in sources):
            return SHOWS[item.kind]
        reads = item.is_load and self.valued.would_load_marked(item, sources[0].result)
        return LOAD_OF_THEM if reads else None

    def is_held_back(self, item):
        """Whether nothing but the defence keeps it waiting, itself or what it waits for."""
        awaited = [writer for writer in item.sources if writer is not None and writer.done is None]
        return item.issued is None and (self.waits_for_a_load(item) or bool(awaited) and all(map(self.is_held_back, awaited)))

    def waits_for_a_load(self, item):
        """Whether what it waits for itself is a result that is held back: of a store of version 2 the first part that didn't go; under `delay`
        that it is visible."""
        if self.rules.delays:
            return self.rules.is_delayed(item)
        if not item.is_store or self.pipeline.description.version == 1:
            return not item.awaits and self.uses_what_is_held_back(item)
        for at, writer in ((item.address_at, item.one), (item.data_at, item.two)):
            if at < 0:
                return writer is not None and writer.done is not None and self.rules.is_held_back(writer)
        return False

    def load(self, item, accesses):
        """A load that issues: what it shows, what it loads, and which stores it goes to the cache for, covered or not."""
        value = item.value
        self.shows(item, value.one.mark)
        if self.valued.loads_marked(item):
            self.loads.add(item.serial)
        for store in self.valued.stores_in_flight if accesses else ():
            if store.serial < item.serial and self.hidden_base(store):
                self.holds(store, BEFORE_A_LOAD)

    # ---- Counting

    def holds(self, item, what):
        held = self.held.get((item.pc, what))
        if held is None:
            held = self.held[item.pc, what] = Held()
        counted = self.holding.setdefault(item.serial, [])
        if held not in counted:
            counted.append(held)
            held.times += 1
        held.cycles += 1
        self.held_now.append(held)

    def shows(self, item, marked, what=None):
        if marked:
            key = item.pc, what or SHOWS[item.kind]
            times, first, retired = self.shown.get(key, (0, self.pipeline.cycle, 0))
            self.shown[key] = Shown(times + 1, first, retired)
            self.showing.setdefault(item.serial, set()).add(key)
            if item.serial == self.watched and self.chain is None:
                self.chain = self.chain_of(item)

    def chain_of(self, item):
        """By which instructions an operand of an entry was made of the bytes; of a call, what it asks for."""
        if item.kind == CALL:
            asked = [self.valued.kept[register].chain for register in arguments(self.valued.registers[A7])]
            return next((chain for chain in asked if chain is not None), None)
        return item.value.marked_chain()
