"""The machine of docs/machine.md in Python: both versions, each model and defence, without proof and without haste.

It is a second answer to what a trace is: it was written from that page, keeps one list of instructions as the page does, and searches
it anew where the page asks a question. What single instructions do it has from tools/src/wadrelwy/verdict, and images from there too.
"""
import tomllib
from types import SimpleNamespace

from wadrelwy.riscv.kinds import BRANCH, CALL, DIVISION, JAL, JALR, LOAD, MULTIPLICATION, STOP, STORE
from wadrelwy.riscv.operation import SIZES, WORD, decode, division_time, effect, extend
from wadrelwy.verdict.hart import JUMP_MISALIGNED, Memory, stored_bytes, system_call
from wadrelwy.view.description import DELAY, FUTURISTIC, HOLD, OPTIONAL, SPECTRE

WAITING, BUSY, DONE = "waiting", "busy", "done"
ALU, MULTIPLIER, DIVIDER, ADDRESS, DATA, LOADS = "alu", "multiplier", "divider", "address", "data", "loads"
PORTS = {MULTIPLICATION: MULTIPLIER, DIVISION: DIVIDER, LOAD: LOADS}
CONTROL = (BRANCH, JALR)
LINK = 1


def read_numbers(text):
    """A description's values by the names of their keys, and its version."""
    tables = tomllib.loads(text)
    values = {key: default for key, (_, default) in OPTIONAL.items()}
    values |= {key: value for table in tables.values() if isinstance(table, dict) for key, value in table.items()}
    return SimpleNamespace(version=tables.get("version", 1), **values)


class Item:
    """A fetched instruction. `predicted` is the next address, None behind a stop. `checkpoint` is history and return stack before it."""

    def __init__(self, pc, word, checkpoint):
        self.pc, self.operation, self.checkpoint = pc, decode(word), checkpoint
        self.kind = self.operation.code.kind
        named = {"jal": 0, "illegal": 2, "ebreak": 3}
        self.cause = None if self.kind != STOP else 1 if word is None else named[self.operation.name]

    @property
    def links(self):
        """It is a jump that writes its return address to x1."""
        return self.kind in (JAL, JALR) and self.operation.code.destination == LINK

    @property
    def returns(self):
        """It is a jump to what x1 says, and writes no register."""
        return self.kind == JALR and self.operation.code.destination == 0 and self.operation.code.sources == (LINK,)


class Entry:
    """An item in flight. `writers` are those of its sources: entries, or None for retired registers. `cleared` is whether it is
    from the start."""

    def __init__(self, serial, item, writers, cleared):
        self.serial, self.item, self.kind, self.writers = serial, item, item.kind, writers
        self.state, self.due = (DONE if self.kind in (CALL, STOP) else WAITING), None
        self.value = self.address = self.stored = 0
        self.next = self.fault = None
        self.issued = self.address_due = self.data_due = None
        self.resolved, self.cleared = False, cleared

    @property
    def size(self):
        return SIZES[self.item.operation.name]

    @property
    def settled(self):
        return self.resolved if self.kind in CONTROL else self.cleared

    @property
    def safe(self):
        if self.kind in (LOAD, STORE):
            return self.state == DONE and self.fault is None and self.cleared
        return self.kind not in (CALL, STOP) and self.settled and (self.kind not in CONTROL or self.fault is None)

    def covers(self, byte):
        """It is a store with a known address and no fault, and writes this byte."""
        known = self.kind == STORE and self.address_due is not None and self.fault is None
        return known and self.address <= byte < self.address + self.size

    def violates(self, load):
        """It is a load that issued before this store's address was known, and neither has a fault, and they share a byte."""
        passed = load.kind == LOAD and load.issued is not None and load.issued < self.address_due
        return passed and load.fault is None and any(map(self.covers, range(load.address, load.address + load.size)))


class Machine:
    """The state between two cycles; `cycle()` answers the events of the next one."""

    def __init__(self, numbers, image):
        self.d, self.code = numbers, image.words
        self.memory = Memory(image.base, image.memory, numbers.misaligned)
        self.registers = [0] * 32
        self.registers[2] = image.base + len(image.memory) - 16 & WORD
        self.now = self.retired = self.next_serial = 0
        self.window, self.queue, self.fetch_pc = [], [], image.entry
        self.counters, self.targets = [1] * numbers.counters, [None] * numbers.btb
        self.history, self.stack = 0, ()
        self.waits_for_stores = [False] * numbers.depend
        self.cache, self.misses = [[] for _ in range(numbers.sets)], []
        self.second = [[] for _ in range(numbers.second_sets)]
        self.free_from, self.user = 0, None
        self.end = None

    # ---- what the window tells

    def writer(self, register, before):
        """The youngest of these that writes the register."""
        return next((e for e in reversed(before) if register and e.item.operation.code.destination == register), None)

    def operands(self, entry):
        return [self.registers[register] if writer not in self.window else writer.value
                for register, writer in zip(entry.item.operation.code.sources, entry.writers)]

    def known(self, entry, sources):
        """The writers of these of its sources give their values, or are gone."""
        writers = [entry.writers[source] for source in sources]
        return all(writer is None or writer not in self.window or self.gives(writer) for writer in writers)

    def gives(self, writer):
        """It is Done, and where loads are held back until they are visible, isn't held back."""
        held = self.d.defence == HOLD and writer.kind == LOAD and not self.is_visible(writer)
        return writer.state == DONE and not held

    def permits(self, entry):
        """It doesn't keep what is younger from being visible."""
        return entry.settled if self.d.model == SPECTRE else entry.safe if self.d.model == FUTURISTIC else True

    def is_visible(self, entry):
        return all(map(self.permits, self.window[:self.window.index(entry)]))

    def may_show(self, entry):
        """What shows an operand of it may go: it is visible, or the defence doesn't delay what isn't."""
        return self.d.defence != DELAY or self.is_visible(entry)

    def hidden_roots(self):
        """For each entry whether each of its sources is tainted: by the loads from which it flows that aren't visible."""
        roots, tainted, visible = {}, {}, True
        for entry in self.window:
            by_source = [roots[writer.serial] if writer in self.window else set() for writer in entry.writers]
            tainted[entry.serial] = [bool(source) for source in by_source]
            roots[entry.serial] = set().union(*by_source) | ({entry.serial} if entry.kind == LOAD and not visible else set())
            visible = visible and self.permits(entry)
        return tainted

    # ---- cache

    def lines(self, address, size):
        """The lines in which the bytes of an access lie, the lower first."""
        return sorted({end - end % self.d.line for end in (address, address + size - 1)})

    def set_of(self, line):
        return self.cache[line // self.d.line % self.d.sets]

    def second_set_of(self, line):
        """Its set in the second level; an empty one where there is no second level."""
        return self.second[line // self.d.line % self.d.second_sets] if self.second else []

    @staticmethod
    def touch(lines, line):
        """A line that the set has goes to its front. Answers whether it has it."""
        if line not in lines:
            return False
        lines.remove(line)
        lines.insert(0, line)
        return True

    @staticmethod
    def enter(lines, line, ways):
        """A line goes to the front of a set, whose last goes where there are too many."""
        lines.insert(0, line)
        del lines[ways:]

    def due_of(self, line):
        """When a miss register's line comes; None where no register has it."""
        return next((miss.due for miss in self.misses if miss.line == line), None)

    def take(self, line):
        """A free miss register takes a line, from the second level or from memory. Answers when it comes, and how that is told."""
        found = self.touch(self.second_set_of(line), line)
        due = self.now + (self.d.second_latency if found else self.d.miss_latency)
        self.misses.append(SimpleNamespace(line=line, due=due, from_memory=not found))
        return due, "2" if found else "m"

    # ---- phases

    def cycle(self):
        self.now += 1
        events = self.fill() + self.complete() + self.resolve() + self.clear() + self.retire()
        if self.end is None:
            events += self.issue() + self.rename() + self.fetch()
        return events

    def fill(self):
        events = []
        for miss in [miss for miss in self.misses if miss.due == self.now]:
            self.misses.remove(miss)
            self.enter(self.set_of(miss.line), miss.line, self.d.ways)
            if miss.from_memory and self.second:
                self.enter(self.second_set_of(miss.line), miss.line, self.d.second_ways)
            events.append(f"fill:{miss.line:08x}")
        return events

    def complete(self):
        ended = [entry for entry in self.window if entry.state == BUSY and entry.due == self.now]
        for entry in ended:
            entry.state = DONE
        return [f"done:{entry.serial}" for entry in ended]

    def resolve(self):
        tainted = self.hidden_roots()
        able = [entry for entry in self.window if entry.kind in CONTROL and entry.state == DONE and not entry.resolved
                and not any(tainted[entry.serial]) and self.may_show(entry)]
        if not able:
            return []
        entry, item = able[0], able[0].item
        entry.resolved = True
        how = "J" if entry.kind == JALR else "T" if entry.value else "N"
        events = [f"res:{entry.serial}:{how}"]
        if entry.kind == BRANCH:
            place = self.counter_of(item)
            self.counters[place] = min(self.counters[place] + 1, 3) if entry.value else max(self.counters[place] - 1, 0)
            events.append(f"bp:{place}:{self.counters[place]}")
        elif entry.fault is None:
            place = item.pc // 4 % self.d.btb
            self.targets[place] = (item.pc, entry.next)
            events.append(f"bt:{place}:{entry.next:08x}")
        if entry.fault is not None or entry.next != item.predicted:
            events.append(f"sq:{self.squash(entry)}")
        return events

    def squash(self, entry):
        """Drops what is younger than this entry, and answers how much that is."""
        dropped = self.drop_from(self.window.index(entry) + 1)
        self.fetch_pc = None if entry.fault is not None else entry.next
        self.history, self.stack = self.checkpoint_behind(entry.item, taken=entry.value == 1)
        return dropped

    def drop_from(self, keep):
        """Drops the entries from this place on, and the queue; answers how much that is."""
        dropped = len(self.window) - keep + len(self.queue)
        if self.user in self.window[keep:]:
            self.free_from, self.user = 0, None
        self.window, self.queue = self.window[:keep], []
        return dropped

    def clear(self):
        """Clears the oldest store that may be, and drops the oldest load that passed it wrongly, with what is younger."""
        tainted = self.hidden_roots()
        able = [entry for entry in self.window if entry.kind == STORE and not entry.cleared and entry.address_due is not None
                and not tainted[entry.serial][0]]
        if not able:
            return []
        store = able[0]
        store.cleared = True
        violated = [load for load in self.window[self.window.index(store):] if store.violates(load)]
        if not violated:
            return [f"clr:{store.serial}"]
        load = violated[0]
        place = self.bit_of(load)
        self.waits_for_stores[place] = True
        dropped = self.drop_from(self.window.index(load))
        self.fetch_pc = load.item.pc
        self.history, self.stack = load.item.checkpoint
        return [f"clr:{store.serial}", f"vio:{load.serial}", f"dp:{place}:1", f"sq:{dropped}"]

    def bit_of(self, load):
        """Where the bit stands that tells a load to wait for the addresses of older stores."""
        return load.item.pc // 4 % self.d.depend

    def retire(self):
        events, stored = [], False
        for _ in range(self.d.retire_width):
            head = self.window[0] if self.window else None
            if head is None or head.state != DONE or head.kind in CONTROL and not head.resolved:
                break
            if head.kind == STOP or head.fault is not None:
                cause = head.item.cause if head.kind == STOP else head.fault
                self.end = f"trap {cause} {head.item.pc:08x}"
                break
            if head.kind == STORE and (stored or not head.cleared):
                break
            self.window.pop(0)
            self.retired += 1
            events.append(f"ret:{head.serial}")
            if head.item.operation.code.destination:
                self.registers[head.item.operation.code.destination] = head.value
            if head.kind == STORE:
                stored = True
                events += self.write(head)
            if head.kind == CALL:
                events.append(self.call(head))
            if self.end is not None:
                break
        return events

    def write(self, store):
        self.memory.put(store.address, stored_bytes(store.stored, store.size))
        lines = self.lines(store.address, store.size)
        return [f"st:{store.serial}:{line:08x}:{'h' if self.touch(self.set_of(line), line) else 'm'}" for line in lines]

    def call(self, entry):
        call = system_call(self.registers, self.memory)
        if call.exit is not None:
            self.end = f"exit {call.exit}"
        else:
            self.registers[10] = call.answer
        return f"call:{entry.serial}:{len(call.piece)}"

    # ---- Issue

    def asks(self, entry, before, tainted):
        """The ports at which the entry, or each of its parts, may issue."""
        if entry.kind == STORE:
            if self.d.version == 1:
                return [ADDRESS, DATA] if entry.state == WAITING and self.known(entry, (0, 1)) else []
            ports = [ADDRESS] if entry.address_due is None and self.known(entry, (0,)) and self.may_show(entry) else []
            return ports + ([DATA] if entry.data_due is None and self.known(entry, (1,)) else [])
        if entry.state != WAITING or not self.known(entry, range(len(entry.writers))):
            return []
        if entry.kind in (LOAD, DIVISION) and not self.may_show(entry):
            return []
        if entry.kind == LOAD and (tainted[entry.serial][0] or not self.may_load(entry, before, tainted)):
            return []
        if entry.kind == DIVISION and (any(tainted[entry.serial]) or self.now < self.free_from):
            return []
        return [PORTS.get(entry.kind, ALU)]

    def may_load(self, load, before, tainted):
        """What a load asks of the older stores."""
        stores = [entry for entry in before if entry.kind == STORE]
        if self.d.version == 1:
            return all(store.state == DONE for store in stores)
        bytes_of_it = self.bytes_of(load)
        passes = self.d.depend and not self.waits_for_stores[self.bit_of(load)]
        for store in stores:
            if store.address_due is None and not passes:
                return False
            if store.data_due is None and (tainted[store.serial][0] or any(map(store.covers, bytes_of_it))):
                return False
        return True

    def bytes_of(self, load):
        """The bytes of a load; none where it faults."""
        address = effect(load.item.operation, load.item.pc, *self.operands(load)).address
        return range(address, address + load.size) if self.memory.fault(LOAD, address, load.size) is None else ()

    def issue(self):
        """Each test is made on the state before the phase; so what begins is put off until all are made."""
        tainted = self.hidden_roots()
        left = {ALU: self.d.alus, MULTIPLIER: 1, DIVIDER: 1, ADDRESS: 1, DATA: 1, LOADS: 1}
        granted = []
        for place, entry in enumerate(self.window):
            for port in self.asks(entry, self.window[:place], tainted):
                if left[port]:
                    left[port] -= 1
                    granted.append((entry, port, self.window[:place]))
        made = [self.begin(entry, port, before, tainted) for entry, port, before in granted]
        events = []
        for changes, told in made:
            events += told
            for entry, values in changes:
                vars(entry).update(values)
        for entry in {entry for entry, _, _ in granted if entry.kind == STORE}:
            if None not in (entry.address_due, entry.data_due):
                entry.state, entry.due = BUSY, max(entry.address_due, entry.data_due)
        return events

    def begin(self, entry, port, before, tainted):
        """What an entry or part comes to, as changes of entries, and its events."""
        item = entry.item
        found = effect(item.operation, item.pc, *self.operands(entry))
        values = {"state": BUSY, "due": self.now + 1, "issued": self.now, "value": found.value, "next": found.next,
                  "address": found.address}
        if port == ADDRESS:
            fault = self.memory.fault(STORE, found.address, entry.size)
            part = {"next": found.next, "address": found.address, "fault": fault, "address_due": self.now + 1}
            return [(entry, part)], [f"agu:{entry.serial}"]
        if port == DATA:
            part = {"next": found.next, "stored": found.stored, "data_due": self.now + 1}
            return [(entry, part)], [f"std:{entry.serial}"] if self.d.version != 1 else []
        if port == LOADS:
            return self.access(entry, values, before, tainted)
        if port == MULTIPLIER:
            values["due"] = self.now + self.d.mul_latency
            return [(entry, values)], [f"mul:{entry.serial}"]
        if port == DIVIDER:
            time = division_time(item.operation.name, self.operands(entry)[0])
            values["due"] = self.free_from = self.now + time
            self.user = entry
            return [(entry, values)], [f"div:{entry.serial}:{time}"]
        values["fault"] = JUMP_MISALIGNED if found.misaligned else None
        return [(entry, values)], [f"alu:{entry.serial}"]

    def access(self, load, values, before, tainted):
        """What the one load that is tried comes to."""
        serial, address = load.serial, values["address"]
        fault = self.memory.fault(LOAD, address, load.size)
        if fault is not None:
            return [(load, {**values, "value": 0, "fault": fault})], [f"ld:{serial}:x"]
        sources = [next((e for e in reversed(before) if e.covers(byte)), None) for byte in range(address, address + load.size)]
        data = bytes(stored_bytes(store.stored, store.size)[byte - store.address] if store else self.memory.get(byte, 1)[0]
                     for byte, store in enumerate(sources, address))
        values["value"] = extend(load.item.operation.name, data)
        if all(sources) and not any(tainted[store.serial][0] for store in before if store.kind == STORE):
            return [(load, values)], [f"ld:{serial}:f"]
        lines = self.lines(address, load.size)
        taken = [line for line in lines if line not in self.set_of(line) and self.due_of(line) is None]
        if len(taken) > self.d.mshrs - len(self.misses):
            return [], []
        found = [self.look(line) for line in lines]
        values["due"] = max(due for due, _ in found)
        events = [f"ld:{serial}:{line:08x}:{answer}" for line, (_, answer) in zip(lines, found)]
        return [(load, values)], events + (self.prefetch(lines[-1] + self.d.line) if taken else [])

    def look(self, line):
        """When a load has this line, and how that is told."""
        if self.touch(self.set_of(line), line):
            return self.now + self.d.hit_latency, "h"
        due = self.due_of(line)
        return self.take(line) if due is None else (due, "j")

    def prefetch(self, line):
        """The line behind those of a load that took a register takes one too, where there is such a line and it is nowhere yet."""
        behind = line >= self.memory.base + len(self.memory.data)
        held = line in self.set_of(line) or self.due_of(line) is not None
        if not self.d.prefetch or behind or held or len(self.misses) >= self.d.mshrs:
            return []
        return [f"pf:{line:08x}:{self.take(line)[1]}"]

    # ---- Rename and Fetch

    def rename(self):
        events = []
        while self.queue and len(events) < self.d.fetch_width and self.fits(self.queue[0]):
            item = self.queue.pop(0)
            writers = [self.writer(register, self.window) for register in item.operation.code.sources]
            cleared = item.kind != STORE or not self.d.depend
            self.window.append(Entry(self.next_serial, item, writers, cleared))
            events.append(f"ren:{self.next_serial}:{item.pc:08x}")
            self.next_serial += 1
        return events

    def fits(self, item):
        kinds = [entry.kind for entry in self.window]
        waiting = sum(entry.state == WAITING for entry in self.window)
        return (len(kinds) < self.d.rob and CALL not in kinds
                and (item.kind != LOAD or kinds.count(LOAD) < self.d.loads)
                and (item.kind != STORE or kinds.count(STORE) < self.d.stores)
                and (item.kind != CALL or not kinds)
                and (item.kind in (CALL, STOP) or waiting < self.d.stations))

    def fetch(self):
        events = []
        while self.fetch_pc is not None and len(events) < self.d.fetch_width and len(self.queue) < self.d.queue:
            item = Item(self.fetch_pc, self.code.get(self.fetch_pc), (self.history, self.stack))
            item.predicted = self.fetch_pc = self.predict(item)
            self.history, self.stack = self.checkpoint_behind(item, self.is_taken(item))
            self.queue.append(item)
            events.append(f"fet:{item.pc:08x}")
        return events

    def counter_of(self, branch):
        """Where its counter stands, by its address and by the history before it."""
        history, _ = branch.checkpoint
        return (branch.pc // 4 ^ history) % self.d.counters

    def is_taken(self, branch):
        """The direction that is predicted."""
        return self.counters[self.counter_of(branch)] >= 2

    def checkpoint_behind(self, item, taken):
        """History and return stack behind an item; `taken` says which way, where it is a branch."""
        history, stack = item.checkpoint
        if item.kind == BRANCH:
            history = (2 * history + taken) % 2 ** self.d.history
        if item.links and self.d.returns:
            stack = (*stack, item.pc + 4 & WORD)[-self.d.returns:]
        if item.returns:
            stack = stack[:-1]
        return history, stack

    def predict(self, item):
        pc, behind = item.pc, item.pc + 4 & WORD
        if item.kind == STOP:
            return None
        if item.kind == JAL or item.kind == BRANCH and self.is_taken(item):
            return pc + item.operation.imm & WORD
        _, stack = item.checkpoint
        if item.returns and stack:
            return stack[-1]
        stored = self.targets[pc // 4 % self.d.btb] if item.kind == JALR else None
        return stored[1] if stored and stored[0] == pc else behind


def trace(numbers, image, cycles):
    """The lines of the trace, and the status of the command that writes it."""
    machine, lines = Machine(numbers, image), []
    while machine.end is None and machine.now < cycles:
        lines.append(" ".join([str(machine.now + 1)] + machine.cycle()))
    lines.append(f"end {machine.end or 'budget'} retired {machine.retired} cycles {machine.now}")
    status = 3 if machine.end is None else 0 if machine.end.startswith("exit") else 1
    return lines, status
