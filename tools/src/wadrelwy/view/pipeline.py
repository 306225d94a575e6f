"""The window and the queue, as the events of a trace move them.

This module does what the events say; whether they are what the machine's rules ask for is the matter of `reasons` and
`checks`. The words are those of docs/machine.md.
"""
from . import Fault
from .description import DELAY, FUTURISTIC, HOLD, SPECTRE
from .items import ADDRESS_PART, DATA_PART, Code, Item
from .memory_side import Cache, Divider, Miss
from .rows import text_of

# how long the ring of entries is at first, and at most: powers of two
RING, LONGEST_RING = 1024, 1 << 20
PREFETCH = "pf"


LOAD_UNITS = {"h": "hit", "m": "miss", "j": "join", "2": "second", "f": "forward", "x": "fault"}


class Pipeline:
    """The machine's state, as far as a trace tells it. `misses` are the miss registers that are taken, by their lines, and `learnt` the
    bits of dependence that are set, each with the cycle in which it was.

    `ring` has the entries in flight, each at the place that the low bits of its serial say, of which `mask` has those that count. `waiting`
    is how many of them haven't issued, and `awake` are those of these that don't wait for a writer alone; `open_stores` the stores that
    aren't Done, and `shadows` the entries that keep younger ones from being visible: what stands behind the first of them isn't. `outcomes`
    are the branches and JALRs that are Done and not resolved, `clearable` the stores of known address that aren't cleared. `dues` are the
    lines that are to come, by
    their cycles. In the cycles that are looked at `counts` is set, and what is counted of cycles is counted: `filled` are the lines that
    came, `dropped` those that went for them, `prefetched` and `from_second` the lines that are prefetched and those of them from the second
    level. `fills` has the lines that came by their cycles; it may be none.
    """

    def __init__(self, image, description):
        self.image, self.description = image, description
        self.version, self.depend = description.version, description.depend
        self.futuristic, self.spectre = description.model == FUTURISTIC, description.model == SPECTRE
        self.holds, self.delays = description.defence == HOLD, description.defence == DELAY
        self.hit_latency, self.mul_latency = description.hit_latency, description.mul_latency
        self.cycle = self.now = self.count = 0
        self.codes = {}
        self.queue, self.window, self.flight, self.ring = [], [], [], [None] * RING
        self.mask = RING - 1
        self.waiting, self.awake, self.open_stores, self.shadows = 0, [], [], []
        self.controls, self.outcomes, self.clearable = [], [], []
        self.dues = {}
        self.writers = [None] * 32
        self.loads = self.stores = 0
        self.cache = Cache(description.line, description.sets, description.ways)
        self.second = Cache(description.line, description.second_sets, description.second_ways)
        self.divider, self.misses = Divider(), {}
        self.learnt, self.counts = {}, True
        self.filled = self.dropped = self.prefetched = self.from_second = 0
        self.fills, self.last_squash = [], None

    def is_hidden(self, root):
        """The load isn't visible, and so what flows from it is tainted. One that has retired is."""
        if root is None or not self.shadows:
            return False
        first = self.shadows[0]
        return root.serial > first.serial

    def is_held(self, writer):
        """Whether this writer is a load whose result `hold` keeps from what reads it."""
        return writer is not None and writer.is_load and self.is_hidden(writer)

    def is_asked(self, item):
        """Whether an entry that hasn't issued isn't visible, and the writers of all that it reads are Done: the defence may keep it."""
        return not item.awaits and self.is_hidden(item)

    def is_kept(self, item):
        """Whether the defence doesn't let an entry issue that is asked."""
        if self.holds:
            return self.is_held(item.one) or self.is_held(item.two)
        if self.delays:
            return (item.is_load or item.is_store or item.divides) and self.is_hidden(item)
        return (item.is_load or item.divides) and self.is_hidden(item.youngest_root)

    def begin(self, cycle):
        """A cycle begins; `now` is its number as an object, for the times of items."""
        self.cycle = self.now = cycle

    def entry(self, event):
        """The entry in flight of an event's serial."""
        item = self.ring[event.number & self.mask]
        if item is None or item.serial != event.number:
            raise Fault(f"cycle {self.cycle}: `{text_of(event)}` is of no entry in flight")
        return item

    @property
    def serials(self):
        """The entries in flight by their serials."""
        return {item.serial: item for item in self.window}

    def put(self, item):
        """Puts an entry into the ring, which grows where another one has its place."""
        while self.ring[item.serial & self.mask] is not None:
            self.grow(item)
        self.ring[item.serial & self.mask] = item

    def grow(self, item):
        """The ring is twice as long, for an entry whose place another one has."""
        other, size = self.ring[item.serial & self.mask], 2 * len(self.ring)
        if other.serial == item.serial or size > LONGEST_RING:
            raise Fault(f"cycle {self.cycle}: ren:{item.serial}:{item.pc:08x} can't follow, as entry {other.serial} is in flight")
        self.ring, self.mask = [None] * size, size - 1
        for entry in self.window:
            self.ring[entry.serial & self.mask] = entry

    # ---- Fill and Complete

    def fill(self, line):
        miss = self.misses.pop(line, None)
        dropped = self.cache.fill(line)
        if self.counts:
            self.filled += 1
            self.dropped += dropped is not None
        if self.fills is not None:
            self.fills.append((self.cycle, line))
        if miss and miss.from_memory:
            self.second.fill(line)

    def complete(self, item):
        item.done = self.now
        for consumer in item.consumers:
            consumer.awaits -= 1
            if not consumer.awaits:
                consumer.ready = self.now
            if consumer.open is not None:
                consumer.wake(self.cycle)
                enter(self.awake, consumer)
        if item.is_store:
            self.open_stores.remove(item)
        elif item.is_control and item.resolved is None:
            enter(self.outcomes, item)
        if item.is_store or item.is_load and self.futuristic:
            self.leave_shadows(item)

    def faults(self, item):
        """Whether it faults: of a store a trace doesn't tell."""
        return item.unit == "fault"

    def is_cleared(self, store):
        """Whether nothing keeps it from retiring but what it does itself. Where no load passes a store it is so from the start."""
        return not self.depend or store.cleared is not None

    def leave_shadows(self, item):
        """A load or store that is safe hides nothing; under `spectre` a store hides nothing once it is cleared."""
        if not is_among(item, self.shadows) or item.is_store and not self.is_cleared(item):
            return
        safe = item.done is not None and not self.faults(item)
        if safe or self.spectre:
            self.shadows.remove(item)

    # ---- Resolve and Clear

    def resolve(self, item, outcome):
        item.resolved, item.outcome = self.now, outcome
        for entries in (self.controls, self.outcomes, self.shadows):
            if is_among(item, entries):
                entries.remove(item)

    def squash(self, item):
        """Drops all that is younger than this branch or JALR, and answers how many entries and items that were."""
        item.mispredicted = True
        self.last_squash = item
        return self.drop_from(item.serial + 1)

    def clear(self, store):
        store.cleared = self.now
        if is_among(store, self.clearable):
            self.clearable.remove(store)
        if store.is_store or store.is_load and self.futuristic:
            self.leave_shadows(store)

    def bit_of(self, load):
        """Where the bit stands that tells a load to wait for the addresses of older stores."""
        return load.pc // 4 % self.depend

    def may_pass(self, load):
        """Whether a load may go before stores of unknown address."""
        return self.depend > 0 and self.bit_of(load) not in self.learnt

    def violate(self, load):
        """Drops a load that passed a store wrongly, with what is younger, and answers how many entries and items that were."""
        load.violated = True
        self.last_squash = load
        if self.description.depend:
            self.learnt.setdefault(self.bit_of(load), self.cycle)
        return self.drop_from(load.serial)

    def drop_from(self, serial):
        """Drops the entries from this serial on, and the queue."""
        queued, dropped, registers = len(self.queue), pop_from(self.window, serial), set()
        for gone in self.queue:
            gone.squashed = self.now
        self.queue.clear()
        for gone in dropped:
            self.drop(gone)
            if self.writers[gone.destination] is gone:
                registers.add(gone.destination)
        for entries in (self.awake, self.open_stores, self.shadows, self.controls, self.outcomes, self.clearable):
            pop_from(entries, serial)
        self.divider.drop_from(serial)
        self.find_writers(registers)
        return queued + len(dropped)

    def drop(self, item):
        """An entry of the window goes."""
        item.squashed = self.now
        if item.open is not None:
            item.wake(self.cycle)
        self.waiting -= item.waiting
        item.waiting = False
        self.leave(item)

    def find_writers(self, registers):
        """Who writes these registers, now that younger writers are dropped."""
        for register in registers:
            self.writers[register] = None
        for entry in reversed(self.window) if registers else ():
            if entry.destination in registers:
                self.writers[entry.destination] = entry
                registers.remove(entry.destination)
                if not registers:
                    return

    def leave(self, item):
        """The window has one entry less."""
        self.ring[item.serial & self.mask] = None
        if item.is_load:
            self.loads -= 1
        elif item.is_store:
            self.stores -= 1

    # ---- Retire

    def retire(self, item):
        if not self.window or self.window[0] is not item:
            raise Fault(f"cycle {self.cycle}: ret:{item.serial} is not of the oldest entry")
        del self.window[0]
        item.retired = self.now
        self.leave(item)
        if item.is_store:
            for entries in (self.open_stores, self.clearable):
                if is_among(item, entries):
                    entries.remove(item)
        if self.writers[item.destination] is item:
            self.writers[item.destination] = None
        if self.shadows and self.shadows[0] is item:
            del self.shadows[0]

    def write(self, item, line, answer):
        item.written += ((line, answer),)
        if answer == "h":
            self.cache.touch(line)

    # ---- Issue

    def issue(self, item, event):
        """The entry begins to execute; `due` is when it will be done. Behind the event of a load come those of its other line, and of what is
        prefetched behind it (`rest`)."""
        name = event.name
        if not item.waiting or item.address_at >= 0 and name == ADDRESS_PART or item.data_at >= 0 and name == DATA_PART:
            raise Fault(f"cycle {self.cycle}: `{text_of(event)}` is of an entry that doesn't wait")
        if name == ADDRESS_PART or name == DATA_PART:
            self.issue_parts(item, name)
            return
        item.waiting = False
        self.waiting -= 1
        item.issued, item.unit = self.now, name
        if name == "ld":
            item.passed = bool(self.open_stores) and self.passes_a_store(item)
            self.access(item, event)
        elif name == "div":
            item.due = self.cycle + event.second
            self.divider.take(item, item.due)
        else:
            item.due = self.cycle + (self.mul_latency if name == "mul" else 1)

    def passes_a_store(self, load):
        """Whether the address of an older store isn't known."""
        for store in self.open_stores:
            if store.serial < load.serial and (store.address_at < 0 or store.address_at == self.cycle):
                return True
        return False

    def issue_parts(self, item, name):
        """A part of a store issues, in version 1 both with one event. It executes from the later one on."""
        if self.version == 1 or name == ADDRESS_PART:
            item.address_at = self.cycle
        if self.version == 1 or name == DATA_PART:
            item.data_at = self.cycle
        if self.depend and name == ADDRESS_PART and item.is_store and item.cleared is None:
            enter(self.clearable, item)
        if item.address_at >= 0 and item.data_at >= 0:
            item.waiting = False
            self.waiting -= 1
            item.issued, item.unit, item.due = self.now, ADDRESS_PART, self.cycle + 1

    def lacks_address(self, store):
        """Whether the address of a store isn't known."""
        return store.address_at < 0

    def shares(self, load, store):
        """Whether the two have a byte in common, which a trace doesn't tell: None."""

    def may_take_two(self, load):
        """Whether the load may have two lines; that of a single byte has one."""
        return is_wide(self.image.words.get(load.pc))

    def access(self, item, event):
        """What a load found: its unit, its lines, and when its value comes."""
        item.lines = lines_of(event)
        due, found = self.cycle + 1, event.text
        if event.second >= 0:
            due = self.look(event.second, event.text)
        for other in event.rest:
            if other.name == PREFETCH:
                self.prefetch(other.number, other.text)
                continue
            later = self.look(other.second, other.text)
            if later > due:
                due, found = later, other.text
        item.due, item.unit = due, LOAD_UNITS[found]

    def prefetch(self, line, answer):
        """A line is prefetched."""
        self.take(line, answer)
        if self.counts:
            self.prefetched += 1
            self.from_second += answer == "2"

    def look(self, line, answer):
        """When a line is there that was found so."""
        if answer == "h":
            self.cache.touch(line)
            return self.cycle + self.hit_latency
        if answer == "j":
            miss = self.misses.get(line)
            return self.cycle + 1 if miss is None else miss.due
        return self.take(line, answer)

    def take(self, line, answer):
        """A miss register takes a line, from the second level or from memory. Answers when it comes."""
        from_memory = answer == "m"
        self.second.touch(line)
        due = self.cycle + (self.description.miss_latency if from_memory else self.description.second_latency)
        self.misses[line] = Miss(due, from_memory)
        self.dues.setdefault(due, []).append(line)
        return due

    # ---- Rename and Fetch

    def rename(self, serial, pc):
        """The front of the queue goes behind the youngest entry."""
        item = self.queue[0] if self.queue else None
        if item is None or item.pc != pc:
            raise Fault(f"cycle {self.cycle}: ren:{serial}:{pc:08x} is not of the front of the queue")
        del self.queue[0]
        item.serial, item.renamed = serial, self.now
        self.find_sources(item)
        self.put(item)
        self.window.append(item)
        self.writers[item.destination] = item
        self.writers[0] = None
        self.enter_lists(item)
        return item

    def find_sources(self, item):
        """The writers of its sources, the roots of these, and how many aren't Done."""
        first, second = item.source_one, item.source_two
        one = self.writers[first] if first >= 0 else None
        two = self.writers[second] if second >= 0 else None
        if one is not None:
            item.one, item.root_one, item.from_one = one, one.root, one.number
            item.add_source(one)
        if two is not None:
            item.two, item.root_two, item.from_two = two, two.root, two.number
            item.add_source(two)
        item.root = item if item.is_load else item.youngest_root
        if not item.awaits and not item.at_once:
            item.ready = self.cycle + 1

    def enter_lists(self, item):
        if item.is_load:
            self.loads += 1
        elif item.is_store:
            self.stores += 1
            self.open_stores.append(item)
        elif item.is_control:
            self.controls.append(item)
        if not item.at_once:
            self.waiting += 1
            item.waiting = True
            self.awake.append(item)
        if self.hides(item):
            self.shadows.append(item)

    def hides(self, item):
        """Whether it keeps what is younger from being visible as it is renamed."""
        if self.futuristic:
            return item.is_load or item.is_store or item.is_control or item.at_once
        return self.spectre and (item.is_control or item.is_store and not self.is_cleared(item))

    def fetch(self, pc):
        code = self.codes.get(pc)
        if code is None:
            code = self.codes[pc] = Code(self.image.instruction(pc))
        item = Item()
        item.fetch(self.count, pc, self.cycle, code)
        self.count += 1
        self.queue.append(item)
        self.flight.append(item)
        return item


def lines_of(event):
    """The lines of a load, each with the letter of what it found; none where it faults or is forwarded."""
    if event.text is None or event.second < 0:
        return ()
    lines = ((event.second, event.text),)
    for other in event.rest:
        if other.name != PREFETCH:
            lines += ((other.second, other.text),)
    return lines


def enter(entries, item):
    """Puts an entry to its place by age."""
    place, serial = len(entries), item.serial
    while place:
        other = entries[place - 1]
        if other.serial <= serial:
            break
        place -= 1
    entries.insert(place, item)


def pop_from(entries, serial):
    """Takes the entries from this serial on out of a list by age, and answers them, the youngest first."""
    popped = []
    while entries:
        last = entries[-1]
        if last.serial < serial:
            break
        popped.append(entries.pop())
    return popped


def is_among(item, entries):
    """Whether it is one of these entries."""
    for entry in entries:
        if entry is item:
            return True
    return False


def is_wide(word):
    """A load of a half-word or a word: its width stands in bits 12 and 13."""
    return bool(word >> 12 & 3)
