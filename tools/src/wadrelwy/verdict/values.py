"""The pipeline with values: what each instruction in flight computes, also on wrong paths, and from which bytes of memory.

A trace has no values. But an entry computes its result from those of the writers of its sources and, if it is a load, from older stores
and retired memory, as it issues (docs/machine.md, "Writers and roots", "Loads"): so each entry is executed with the event of its issue,
each part of a store with its own. The run checks itself: the lines, faults, times of divisions and directions of branches that are
computed have to be those that the trace tells."""
from wadrelwy.riscv.kinds import CALL, DIVISION, JALR, LOAD
from wadrelwy.riscv.operation import WORD, decoded_of, division_time, effect
from wadrelwy.view import Fault
from wadrelwy.view.pipeline import PREFETCH, Pipeline

from .chain import Chain
from .hart import JUMP_MISALIGNED, Memory, system_call


class Retired:
    """A register's retired value, whether it comes from a marked byte, and by which chain."""

    __slots__ = ("result", "mark", "chain")

    def set(self, result, mark, chain=None):
        self.result, self.mark, self.chain = result, mark, chain


class Value(Retired):
    """What an entry computes. `one` and `two` are the values of its operands, None where there are fewer; `result` is its own, negative until
    it issues, and `mark` whether it comes from a marked byte. `address` is that of a load or store, negative until its base is known, `fault` is then
    why it would trap, or none, and `first` and `behind` are where the bytes of its access begin and end: there are none where it faults, or
    its base isn't known. `taken` is whether a branch is."""

    __slots__ = ("decoded", "pc", "one", "two", "address", "stored", "fault", "taken", "first", "behind")

    def begin(self, decoded, pc, one, two):
        """Its entry is renamed."""
        self.result, self.mark, self.chain = -1, False, None
        self.decoded, self.pc, self.one, self.two = decoded, pc, one, two
        self.fault, self.taken = None, False
        self.address, self.stored, self.first, self.behind = -1, 0, 0, 0

    @property
    def sources(self):
        """The values of its operands."""
        return [source for source in (self.one, self.two) if source is not None]

    def is_marked(self):
        """Whether any source's value comes from a marked byte."""
        return self.one is not None and self.one.mark or self.two is not None and self.two.mark

    def marked_chain(self):
        """The chain of its first source that comes from a marked byte."""
        if self.one is not None and self.one.mark:
            return self.one.chain
        return self.two.chain if self.two is not None and self.two.mark else None

    def effect(self, operands):
        """What it makes of these operands."""
        return effect(self.decoded.operation, self.pc, *operands)

    def covers(self, address):
        """Whether its access has the byte of this address."""
        return self.first <= address < self.behind


def retired(result, mark, chain=None):
    """A retired value of this result, mark and chain."""
    made = Retired()
    made.set(result, mark, chain)
    return made


def handed_on(chain, pc):
    """A chain with one instruction more, where there is one."""
    return None if chain is None else chain.on(pc)


def known(value):
    """The result of an operand's value; 0 where it isn't there, or there is no operand."""
    return 0 if value is None or value.result < 0 else value.result


def text(events):
    """What events tell behind their serials: how long a division takes, or a line and how it is found, or a letter alone."""
    return " ".join(f"{words[0]:08x}:{words[1]}" if len(words) == 2 else "".join(map(str, words)) for words in events)


class Valued(Pipeline):
    """A pipeline whose entries have values, each its own. `marks` are the addresses of the bytes that are followed; they move with what is
    computed from them, through registers and memory. What is merely chosen by them, as by a branch, isn't marked. `registers`, `memory`
    and their marks are the retired ones, `kept` the registers' values with theirs; a byte of memory that a store marked has the chain of what was
    stored, and one that was marked before the run none. A compiled class calls its base's methods by their name."""

    def __init__(self, image, description, marks):
        super().__init__(image, description)
        self.memory, self.registers = Memory(image.base, image.memory, image.misaligned), [0] * 32
        self.registers[2] = image.base + len(image.memory) - 16 & WORD
        self.marked_bytes, self.marked_registers = dict.fromkeys(marks), [False] * 32
        self.kept = [retired(value, False) for value in self.registers]
        self.decoded, self.to_write, self.stores_in_flight, self.line = {}, [], [], description.line
        # whether a byte that was found last is marked, and the chain of one that is
        self.found_mark, self.found_chain = False, None

    # ---- Rename

    def rename(self, serial, pc):
        item = Pipeline.rename(self, serial, pc)
        decoded = self.decoded.get(pc)
        if decoded is None:
            decoded = self.decoded[pc] = decoded_of(self.image.words.get(pc))
        one = two = None
        if item.source_one >= 0:
            one = self.kept[item.source_one] if item.one is None else item.one.value
        if item.source_two >= 0:
            two = self.kept[item.source_two] if item.two is None else item.two.value
        value = item.value = Value()
        value.begin(decoded, pc, one, two)
        if item.is_store:
            self.stores_in_flight.append(item)
        return item

    def located(self, item):
        """The value of a load or store, with its address as soon as its base is known."""
        value = item.value
        if value.address < 0 <= value.one.result:
            decoded = value.decoded
            value.address = value.one.result + decoded.imm & 0xffffffff
            value.fault = self.memory.fault(decoded.kind, value.address, decoded.size)
            if value.fault is None:
                value.first, value.behind = value.address, value.address + decoded.size
        return value

    # ---- Issue executes

    def issue(self, item, event):
        value = item.value
        if item.is_load:
            self.load(item, value, event)
        elif item.kind == DIVISION or event.second >= 0 or event.text is not None or event.rest:
            self.compare(item, event)
        if item.is_store:
            self.located(item)
        elif not item.is_load:
            self.execute(value)
        Pipeline.issue(self, item, event)
        if item.data_at >= 0 and value.two is not None and value.two.result >= 0:
            value.stored = value.two.result

    def load(self, item, value, event):
        """A load finds its bytes."""
        self.located(item)
        lines = self.lines_of(value) if value.fault is None else None
        if lines is None or event.rest or event.text != "f" and (len(lines) != 1 or event.second != lines[0] or event.text is None):
            self.compare(item, event)
        if value.behind:
            value.result = value.decoded.extended(self.found(item, value.first, value.behind))
            value.mark = self.found_mark or value.is_marked()
        else:
            value.result, value.mark = 0, value.is_marked()
            self.found_mark = False
        if value.mark:
            value.chain = handed_on(self.found_chain if self.found_mark else value.marked_chain(), value.pc)

    def compare(self, item, event):
        """What an entry's issue tells has to be what is computed."""
        events = [other for other in (event, *event.rest) if other.name != PREFETCH]
        told, computed = [other.behind for other in events], self.told_by_issue(item, events)
        if told != computed:
            self.differs(item, f"tells {event.name}:{text(told)}", text(computed))

    def execute(self, value):
        decoded, a, b = value.decoded, known(value.one), known(value.two)
        # what a JALR writes is its own address plus 4, wherever it goes
        value.mark = decoded.kind != JALR and value.is_marked()
        if value.mark:
            value.chain = handed_on(value.marked_chain(), value.pc)
        if decoded.has_value:
            value.result = decoded.value(a, b)
        elif decoded.is_branch:
            value.taken = decoded.is_taken(a, b)
            value.result = value.taken
            if value.taken and value.pc + decoded.imm & 3:
                value.fault = JUMP_MISALIGNED
        else:
            done = value.effect([a, b])
            value.result = done.value
            if done.misaligned:
                value.fault = JUMP_MISALIGNED

    def found(self, load, first, behind):
        """The number that a load finds from one address up to another before Issue, in `found_mark` whether a byte of it is marked, and in
        `found_chain` the chain of the lowest such byte: each from the youngest older store that covers it, as far as addresses are known, else
        from memory."""
        stores, marks, number, mark = self.stores_before(load, first, behind), self.marked_bytes, 0, False
        if not stores and not marks:
            self.found_mark = False
            return self.memory.number(first, behind - first)
        for address in range(behind - 1, first - 1, -1):
            store = covering(stores, address)
            if store is None:
                number = number << 8 | self.memory.number(address, 1)
                if address in marks:
                    mark, self.found_chain = True, marks[address] or Chain(address)
            else:
                number = number << 8 | store.stored >> 8 * (address - store.address) & 0xff
                if store.two.mark:
                    mark, self.found_chain = True, handed_on(store.two.chain, store.pc)
        self.found_mark = mark
        return number

    def stores_before(self, load, first, behind):
        """The values of the older stores of known address that cover one of these bytes, the youngest first."""
        found = []
        for store in reversed(self.stores_in_flight):
            if store.serial < load.serial and 0 <= store.address_at < self.cycle:
                value = store.value
                if value.first < behind and first < value.behind:
                    found.append(value)
        return found

    def loads_marked(self, load):
        """Whether a load whose base is known loads a marked byte, as memory and stores are before Issue."""
        value = self.located(load)
        if not value.behind:
            return False
        self.found(load, value.first, value.behind)
        return self.found_mark

    def would_load_marked(self, load, base):
        """Whether a load would load a marked byte, were this its base."""
        decoded = load.value.decoded
        address = base + decoded.imm & 0xffffffff
        if self.memory.fault(LOAD, address, decoded.size) is not None:
            return False
        self.found(load, address, address + decoded.size)
        return self.found_mark

    def told_by_issue(self, item, events):
        """What the events of its issue tell behind the serial: how a load finds a line is for others to say."""
        value = item.value
        if item.kind == DIVISION:
            return [[division_time(value.decoded.name, known(value.one))]]
        if not item.is_load:
            return [[]]
        if self.located(item).fault is not None:
            return [["x"]]
        if events[0].text == "f":
            return [["f"]]
        found = [[event.number, *event.behind][-1] for event in events] + [""]
        return [[line, how] for line, how in zip(self.lines_of(value), found)]

    # ---- What is asked of addresses

    def shares(self, load, store):
        """Whether the two have a byte in common; where one faults it has none. None where the load's address isn't known yet."""
        one, two = self.located(load), self.located(store)
        return None if one.address < 0 else one.first < two.behind and two.first < one.behind

    def lines_of(self, value):
        """The lines of an access, the lower first."""
        last = value.address + value.decoded.size - 1
        low, high = value.address - value.address % self.line, last - last % self.line
        return [low] if low == high else [low, high]

    def may_take_two(self, load):
        """Whether both of its lines lack in the cache and aren't on their way."""
        lines = self.lines_of(self.located(load))
        return len(lines) == 2 and not any([self.cache.has(line) or line in self.misses for line in lines])

    def faults(self, item):
        """A store that faults isn't safe, which the trace alone doesn't tell."""
        value = item.value
        return Pipeline.faults(self, item) or item.is_store and value.fault is not None

    def prospect(self, value):
        """What a value that isn't there yet will be, and its mark, where no load has to be waited for; else none."""
        if value.result >= 0:
            return retired(value.result, value.mark)
        sources = [self.prospect(source) for source in value.sources]
        if None in sources or value.decoded.is_load:
            return None
        return retired(value.effect([source.result for source in sources]).value, any([source.mark for source in sources]))

    # ---- Resolve and Retire

    def resolve(self, item, outcome):
        value = item.value
        computed = "J" if item.kind == JALR else "T" if value.taken else "N"
        if computed != outcome:
            self.differs(item, f"is resolved as {outcome}", computed)
        Pipeline.resolve(self, item, outcome)

    def leave(self, item):
        Pipeline.leave(self, item)
        item.value = None
        if item.is_store:
            self.stores_in_flight.remove(item)

    def retire(self, item):
        value = item.value
        Pipeline.retire(self, item)
        if item.destination:
            self.keep(item.destination, known(value), value.mark, value.chain)
        if item.kind == CALL:
            call = system_call(self.registers, self.memory)
            if call.exit is None:
                self.keep(10, call.answer, False)
        self.to_write = self.lines_of(value) if item.is_store else []
        if item.is_store and value.behind:
            self.memory.put_number(value.address, value.decoded.size, value.stored)
            if value.two.mark or self.marked_bytes:
                self.mark_bytes(range(value.first, value.behind), value.two.mark, handed_on(value.two.chain, value.pc))
        # younger values name this one: without its own sources the values of a long run aren't kept
        value.one = value.two = None

    def keep(self, register, result, mark, chain=None):
        """A register is written: its retired value, whether that comes from a marked byte, and by which chain."""
        self.registers[register], self.marked_registers[register] = result, mark
        self.kept[register] = retired(result, mark, chain)

    def mark_bytes(self, addresses, mark, chain=None):
        """Bytes are written: from now on they are marked, with this chain, or aren't."""
        if mark:
            self.marked_bytes.update(dict.fromkeys(addresses, chain))
        else:
            for address in addresses:
                self.marked_bytes.pop(address, None)

    def write(self, item, line, answer):
        """Each line of a store is one of those that it writes, in their order."""
        Pipeline.write(self, item, line, answer)
        right, place = self.to_write, len(item.written) - 1
        if right[place:place + 1] != [line]:
            self.differs(item, f"writes line {line:08x}", " ".join([f"{line:08x}" for line in right]))

    def differs(self, item, told, computed):
        raise Fault(f"cycle {self.cycle}: entry {item.serial} at {self.image.named(item.pc)} {told}, and {computed} is computed: "
                    f"the trace isn't one of this image under this description")


def covering(stores, address):
    """The first of these stores that covers a byte, or none."""
    for store in stores:
        if store.covers(address):
            return store
    return None
