"""The instruction set's own machine: one instruction at a time, in order (docs/instruction-set.md)."""
from collections import namedtuple

from wadrelwy.riscv.kinds import CALL, LOAD
from wadrelwy.riscv.operation import WORD, decoded_of, effect

# The causes of traps.
JUMP_MISALIGNED, OUTSIDE_CODE, ILLEGAL, BREAKPOINT = 0, 1, 2, 3
LOAD_MISALIGNED, LOAD_OUTSIDE, STORE_MISALIGNED, STORE_OUTSIDE = 4, 5, 6, 7

EXITS, WRITE, MOST_WRITTEN = (93, 94), 64, 1024
NO_STREAM, NO_MEMORY, NO_CALL = -9, -14, -38


class Access(namedtuple("Access", "kind address size")):
    """What a load or store without fault accessed: so many bytes from an address on."""

    __slots__ = ()


class Step(namedtuple("Step", "pc word written access fault")):
    """What one step did. `written` is a register and its value, or none. `fault` is that of a load or store that was passed over."""

    __slots__ = ()


class Memory:
    """Bytes from a base address on. With `misaligned` an access may have any address."""

    def __init__(self, base, data, misaligned=False):
        self.base, self.data, self.misaligned = base, bytearray(data), misaligned

    def holds(self, address, size):
        return self.base <= address and address + size <= self.base + len(self.data)

    def fault(self, kind, address, size):
        """Why an access traps: misaligned, or else outside memory; none where it doesn't."""
        if address % size and not self.misaligned:
            return LOAD_MISALIGNED if kind == LOAD else STORE_MISALIGNED
        if not self.holds(address, size):
            return LOAD_OUTSIDE if kind == LOAD else STORE_OUTSIDE
        return None

    def get(self, address, size):
        return bytes(self.data[address - self.base:address - self.base + size])

    def put(self, address, data):
        self.data[address - self.base:address - self.base + len(data)] = data

    def number(self, address, size):
        """The number that so many bytes are, the lowest first."""
        number, place = 0, address - self.base + size
        while size:
            size, place = size - 1, place - 1
            number = number << 8 | self.data[place]
        return number

    def put_number(self, address, size, number):
        """Writes the low bytes of a number."""
        place = address - self.base
        while size:
            self.data[place] = number & 0xff
            number, place, size = number >> 8, place + 1, size - 1


def stored_bytes(value, size):
    """The bytes that a store writes, the lowest first."""
    return (value & (1 << 8 * size) - 1).to_bytes(size, "little")


class Call(namedtuple("Call", "exit answer piece", defaults=(None, 0, b""))):
    """What a system call leaves: the exit's value, where it ends the run; else the answer in a0, and the bytes put out."""

    __slots__ = ()


def system_call(registers, memory):
    """docs/instruction-set.md, "System calls"."""
    number, stream, address, size = registers[17], registers[10], registers[11], min(registers[12], MOST_WRITTEN)
    if number in EXITS:
        return Call(exit=stream)
    if number != WRITE:
        return Call(answer=NO_CALL & WORD)
    if stream not in (1, 2):
        return Call(answer=NO_STREAM & WORD)
    if size and not memory.holds(address, size):
        return Call(answer=NO_MEMORY & WORD)
    return Call(answer=size, piece=memory.get(address, size) if size else b"")


class Hart:
    """Registers, pc and memory of an image's run. `end` is none until the run ends, then ("exit", value) or ("trap", cause, pc).

    With `passing` a load or store that would trap is passed over: a load gives 0, a store writes nothing. That is the path of the
    models `spectre` and `off` (docs/machine.md, "Paths"). `last` is the address of the instruction that the last step took; `size` how many bytes
    from `address` on it accessed, or 0, and `fault` why it would trap where it was passed over."""

    def __init__(self, image, passing=False):
        self.code, self.memory, self.passing = image.words, Memory(image.base, image.memory, image.misaligned), passing
        self.pc, self.registers, self.retired, self.end, self.out = image.entry, [0] * 32, 0, None, []
        self.registers[2] = image.base + len(image.memory) - 16 & WORD
        self.decoded, self.last, self.address, self.size, self.fault = {}, 0, 0, 0, None

    def run(self, steps):
        """The steps that are taken, at most so many. One that traps isn't among them."""
        for _ in range(steps):
            if self.end is not None:
                return
            step = self.step()
            if step is not None:
                yield step

    def loads(self, steps):
        """Takes at most so many steps. Answers each byte that is loaded, with the pc of its first load."""
        found = {}
        for _ in range(steps):
            if self.end is not None:
                break
            decoded = self.advance()
            if decoded is not None and decoded.is_load and self.size:
                for address in range(self.address, self.address + self.size):
                    if address not in found:
                        found[address] = self.last
        return found

    def step(self):
        """One step; none, and the end of the run, where it traps."""
        decoded = self.advance()
        if decoded is None:
            return None
        register = 10 if decoded.kind == CALL and self.end is None else decoded.destination
        written = (register, self.registers[register]) if register else None
        access = Access(decoded.kind, self.address, self.size) if self.size else None
        return Step(self.last, self.code[self.last], written, access, self.fault)

    def advance(self):
        """One step; answers the instruction that it took, or none where it traps, which ends the run."""
        pc, registers = self.pc, self.registers
        decoded = self.decoded.get(pc)
        if decoded is None:
            if self.code.get(pc) is None:
                return self.trap(OUTSIDE_CODE)
            decoded = self.decoded[pc] = decoded_of(self.code[pc])
        self.size, self.fault = 0, None
        a, b = registers[decoded.one], registers[decoded.two]
        if decoded.has_value:
            return self.go_on(decoded, pc + 4, decoded.value(a, b))
        if decoded.is_load or decoded.is_store:
            return self.access(decoded, a + decoded.imm & 0xffffffff, b)
        if decoded.is_branch and not decoded.is_taken(a, b):
            return self.go_on(decoded, pc + 4, 0)
        return self.call(decoded) if decoded.kind == CALL else self.other(decoded, a, b)

    def other(self, decoded, a, b):
        """What is neither an operation on values nor an access: jumps, and what traps in any case."""
        if decoded.name in ("illegal", "ebreak"):
            return self.trap(ILLEGAL if decoded.name == "illegal" else BREAKPOINT)
        outcome = effect(decoded.operation, self.pc, *(a, b)[:len(decoded.operation.code.sources)])
        return self.trap(JUMP_MISALIGNED) if outcome.misaligned else self.go_on(decoded, outcome.next, outcome.value)

    def trap(self, cause):
        self.end = ("trap", cause, self.pc)

    def go_on(self, decoded, following, value):
        """Writes the register, unless it is x0, and goes on."""
        self.last, self.pc, self.retired = self.pc, following & 0xffffffff, self.retired + 1
        if decoded.destination:
            self.registers[decoded.destination] = value
        return decoded

    def access(self, decoded, address, stored):
        """A load or a store."""
        self.fault = self.memory.fault(decoded.kind, address, decoded.size)
        if self.fault is not None:
            return self.go_on(decoded, self.pc + 4, 0) if self.passing else self.trap(self.fault)
        self.address, self.size = address, decoded.size
        if decoded.is_store:
            self.memory.put_number(address, decoded.size, stored)
            return self.go_on(decoded, self.pc + 4, 0)
        return self.go_on(decoded, self.pc + 4, decoded.extended(self.memory.number(address, decoded.size)))

    def call(self, decoded):
        call = system_call(self.registers, self.memory)
        if call.exit is not None:
            self.end = ("exit", call.exit)
            return self.go_on(decoded, self.pc + 4, 0)
        if call.piece:
            self.out.append(call.piece)
        self.registers[10] = call.answer
        return self.go_on(decoded, self.pc + 4, 0)


def end_text(end, retired):
    """The last line of a report of `isa` (docs/formats.md, "The last line")."""
    if end is None:
        how = "budget"
    elif end[0] == "exit":
        how = f"exit {end[1]}"
    else:
        how = f"trap {end[1]} {end[2]:08x}"
    return f"end {how} retired {retired}"


def report(hart, image):
    """The report of `isa` on a run (docs/formats.md, "The report")."""
    lines = ["out " + piece.hex() for piece in hart.out]
    lines += [f"x{number} {value:08x}" for number, value in enumerate(hart.registers)]
    lines.append(f"pc {hart.pc:08x}")
    for at in range(0, len(image.memory), 16):
        row = hart.memory.data[at:at + 16]
        if row != image.memory[at:at + 16]:
            lines.append(f"mem {image.base + at:08x} {row.hex()}")
    return "\n".join(lines + [end_text(hart.end, hart.retired)]) + "\n"
