"""What a word says, and what an instruction makes of its operands (docs/instruction-set.md, "Decoding" and "Values").

Which words are legal, their kinds and registers are told by `kinds`; here are names, immediates and effects."""
from functools import cache
from typing import NamedTuple, Optional

from .kinds import BRANCH, ILLEGAL, LOAD, STORE, Instruction, instruction_of

from .arithmetic import Decoded, takes, value_of

WORD = 0xffffffff

BRANCHES = {0: "beq", 1: "bne", 4: "blt", 5: "bge", 6: "bltu", 7: "bgeu"}
LOADS = {0: "lb", 1: "lh", 2: "lw", 4: "lbu", 5: "lhu"}
STORES = {0: "sb", 1: "sh", 2: "sw"}
IMMEDIATES = {0: "addi", 2: "slti", 3: "sltiu", 4: "xori", 6: "ori", 7: "andi"}
SHIFTS = {(1, 0): "slli", (5, 0): "srli", (5, 0x20): "srai"}
REGISTERS = {
    (0, 0): "add", (1, 0): "sll", (2, 0): "slt", (3, 0): "sltu", (4, 0): "xor", (5, 0): "srl", (6, 0): "or", (7, 0): "and",
    (0, 0x20): "sub", (5, 0x20): "sra",
    (0, 1): "mul", (1, 1): "mulh", (2, 1): "mulhsu", (3, 1): "mulhu", (4, 1): "div", (5, 1): "divu", (6, 1): "rem", (7, 1): "remu",
}
SIZES = {"lb": 1, "lbu": 1, "sb": 1, "lh": 2, "lhu": 2, "sh": 2, "lw": 4, "sw": 4}


class Operation(NamedTuple):
    """A decoded word: its kind and registers (`code`), its name, and its immediate."""
    code: Instruction
    name: str
    imm: int = 0


class Effect(NamedTuple):
    """What an instruction makes of its operands, memory and calls apart."""
    value: int
    next: int
    address: int = 0
    stored: int = 0
    misaligned: bool = False


def signed(value: int, bits: int = 32) -> int:
    """The low bits of a number, read with a sign."""
    value &= (1 << bits) - 1
    return value - ((value >> bits - 1) << bits)


@cache
def decode(word: Optional[int]) -> "Operation":
    """The operation of a word; None, which is what stands outside code, can only trap. `instruction_of` says which words are legal."""
    code = instruction_of(word)
    form = FORMS.get((word or 0) & 0x7f)
    if word is None or form is None or code == ILLEGAL and word & 0x7f != JAL:
        return Operation(code, {0x00000073: "ecall", 0x00100073: "ebreak"}.get(word or 0, "illegal"))
    return Operation(code, *form(word))


def immediate_i(word: int) -> int:
    return signed(word >> 20, 12)


def load(word: int) -> tuple:
    return LOADS[word >> 12 & 7], immediate_i(word)


def store(word: int) -> tuple:
    return STORES[word >> 12 & 7], signed(word >> 25 << 5 | word >> 7 & 31, 12)


def branch(word: int) -> tuple:
    imm = (word >> 31) << 12 | (word >> 7 & 1) << 11 | (word >> 25 & 0x3f) << 5 | (word >> 8 & 0xf) << 1
    return BRANCHES[word >> 12 & 7], signed(imm, 13)


def jal(word: int) -> tuple:
    imm = (word >> 31) << 20 | (word >> 12 & 0xff) << 12 | (word >> 20 & 1) << 11 | (word >> 21 & 0x3ff) << 1
    return "jal", signed(imm, 21)


def with_immediate(word: int) -> tuple:
    """A shift has its amount where the other forms have an immediate."""
    name = IMMEDIATES.get(word >> 12 & 7)
    return (name, immediate_i(word)) if name else (SHIFTS[word >> 12 & 7, word >> 25], word >> 20 & 31)


def with_registers(word: int) -> tuple:
    return REGISTERS[word >> 12 & 7, word >> 25], 0


JAL = 0x6f
FORMS = {
    0x37: lambda word: ("lui", word & 0xfffff000), 0x17: lambda word: ("auipc", word & 0xfffff000), JAL: jal,
    0x67: lambda word: ("jalr", immediate_i(word)), 0x63: branch, 0x03: load, 0x23: store, 0x13: with_immediate,
    0x33: with_registers, 0x0f: lambda word: ("fence", 0),
}


# the names of what makes a value of two registers, or of one and an immediate
VALUES = frozenset([*REGISTERS.values(), *IMMEDIATES.values(), *SHIFTS.values()])


def division_time(name: str, dividend: int) -> int:
    """The cycles that a division takes: 3, and one for each binary digit of the dividend's magnitude."""
    return 3 + abs(signed(dividend) if name in ("div", "rem") else dividend).bit_length()


def extend(name: str, data: bytes) -> int:
    """The value of loaded bytes, the lowest first."""
    value = int.from_bytes(data, "little")
    return signed(value, 8 * len(data)) & WORD if name in ("lb", "lh") else value


def jump(value: int, target: int) -> "Effect":
    return Effect(value, target, misaligned=target % 4 != 0)


def effect(operation: "Operation", pc: int, a: int = 0, b: int = 0) -> "Effect":
    """The effect of an operation at this pc whose first and second source hold a and b."""
    (kind, sources, _), name, imm = operation
    behind = pc + 4 & WORD
    if name in VALUES:
        return Effect(value_of(name, a, b if len(sources) == 2 else imm & WORD), behind)
    if name == "jal":
        return jump(behind, pc + imm & WORD)
    if name == "jalr":
        return jump(behind, a + imm & WORD & ~1)
    if kind == BRANCH:
        return jump(1, pc + imm & WORD) if takes(name, a, b) else Effect(0, behind)
    if kind in (LOAD, STORE):
        return Effect(0, behind, a + imm & WORD, b)
    if name == "lui":
        return Effect(imm, behind)
    if name == "auipc":
        return Effect(pc + imm & WORD, behind)
    return Effect(0, behind)


def decoded_of(word: int) -> "Decoded":
    """What is taken of a word to execute it."""
    operation = decode(word)
    return Decoded(operation, SIZES.get(operation.name, 0), operation.name in VALUES)
