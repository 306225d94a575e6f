"""What RV32IM makes of two words, by the names of instructions (docs/instruction-set.md, "Values")."""
from .kinds import BRANCH, LOAD, STORE

ONES = 0xffffffff


class Decoded:
    """What is taken of an instruction to execute it: its operation, the registers that it reads, 0 where there are fewer, the one that it
    writes, and how many bytes it loads or stores. `has_value` says whether its result is `value_of` two registers, or of one and an
    immediate."""

    __slots__ = ("operation", "name", "kind", "imm", "one", "two", "destination", "size", "has_value", "has_two", "is_branch", "is_load",
                 "is_store", "has_sign")

    def __init__(self, operation, size, has_value):
        self.operation, self.name, self.imm, self.size, self.has_value = operation, operation.name, operation.imm, size, has_value
        self.kind, sources, self.destination = operation.code
        self.one, self.two = (*sources, 0, 0)[:2]
        self.has_two = len(sources) == 2
        self.is_branch, self.is_load, self.is_store = self.kind == BRANCH, self.kind == LOAD, self.kind == STORE
        self.has_sign = self.name in ("lb", "lh")

    def value(self, a, b):
        """What `value_of` its operands is."""
        return value_of(self.name, a, b if self.has_two else self.imm & 0xffffffff)

    def is_taken(self, a, b):
        """Whether it is a branch that is taken on these operands."""
        return self.is_branch and takes(self.name, a, b)

    def extended(self, value):
        """A loaded number as its register gets it."""
        if self.has_sign and value >> 8 * self.size - 1:
            return value + 0x100000000 - (1 << 8 * self.size)
        return value


def of_word(value):
    """A word, read with a sign."""
    return value - (value >> 31 << 32)


def value_of(name, a, b):
    """The word that an instruction of this name makes of two words. The second one is the immediate, where it has one. What comes most
    often is asked first."""
    if name == "addi" or name == "add":
        value = a + b
    elif name == "andi" or name == "and":
        value = a & b
    elif name == "slli" or name == "sll":
        value = a << (b & 31)
    elif name == "srli" or name == "srl":
        value = a >> (b & 31)
    elif name == "xori" or name == "xor":
        value = a ^ b
    elif name == "ori" or name == "or":
        value = a | b
    elif name == "sub":
        value = a - b
    elif name == "srai" or name == "sra":
        value = of_word(a) >> (b & 31)
    elif name == "sltiu" or name == "sltu":
        value = a < b
    elif name == "slti" or name == "slt":
        value = of_word(a) < of_word(b)
    else:
        return product_of(name, a, b) & ONES
    return value & ONES


def product_of(name, a, b):
    """What a multiplication or a division makes of two words."""
    if name == "mul":
        return a * b
    if name == "mulhu":
        return a * b >> 32
    if name == "mulh":
        return of_word(a) * of_word(b) >> 32
    if name == "mulhsu":
        return of_word(a) * b >> 32
    if name == "divu":
        return a // b if b else ONES
    if name == "remu":
        return a % b if b else a
    if name == "div":
        return quotient(of_word(a), of_word(b)) if b else ONES
    return of_word(a) - of_word(b) * quotient(of_word(a), of_word(b)) if b else a


def quotient(a, b):
    """The quotient of two numbers with signs, rounded towards zero."""
    size = abs(a) // abs(b)
    return size if (a < 0) == (b < 0) else -size


def takes(name, a, b):
    """Whether a branch of this name is taken on two words."""
    if name == "beq":
        return a == b
    if name == "bne":
        return a != b
    if name == "bltu":
        return a < b
    if name == "bgeu":
        return a >= b
    return of_word(a) < of_word(b) if name == "blt" else of_word(a) >= of_word(b)
