"""What a word of code is to the pipeline (docs/machine.md, "Kinds"; docs/instruction-set.md, "Decoding").

This is no disassembler: it tells an instruction's kind and which registers it reads and writes, and nothing else. The
reasons for waiting need that.
"""
from functools import cache
from typing import NamedTuple, Optional

ARITHMETIC, MULTIPLICATION, DIVISION = "arithmetic", "multiplication", "division"
LOAD, STORE, BRANCH, JALR, JAL, CALL, STOP = "load", "store", "branch", "jalr", "jal", "call", "stop"
CONTROLS, AT_ONCE = frozenset((BRANCH, JALR)), frozenset((CALL, STOP))
LINK = 1


class Instruction(NamedTuple):
    """The kind, the registers read (the base first), and the register written, 0 where there is none."""

    kind: str
    sources: tuple
    destination: int

    @property
    def is_control(self) -> bool:
        """A branch or JALR: what is resolved."""
        return self.kind in CONTROLS

    @property
    def is_return(self) -> bool:
        """A JALR to what x1 says, that writes no register."""
        return self.kind == JALR and self.sources == (LINK,) and self.destination == 0

    @property
    def at_once(self) -> bool:
        """A call or stop: Done from its renaming on, and never issued."""
        return self.kind in AT_ONCE


ILLEGAL = Instruction(STOP, (), 0)


@cache
def instruction_of(word: Optional[int]) -> "Instruction":
    """The instruction of a word; None, which is what stands outside code, can only trap."""
    if word is None:
        return ILLEGAL
    if word == 0x00000073:
        return Instruction(CALL, (), 0)
    function = FORMS.get(word & 0x7F)
    found = function(word) if function else None
    return found or ILLEGAL


def destination(word: int) -> int:
    return word >> 7 & 31


def first(word: int) -> int:
    return word >> 15 & 31


def second(word: int) -> int:
    return word >> 20 & 31


def funct3(word: int) -> int:
    return word >> 12 & 7


def funct7(word: int) -> int:
    return word >> 25


def upper(word: int) -> "Instruction":
    return Instruction(ARITHMETIC, (), destination(word))


def jal(word: int) -> "Optional[Instruction]":
    """A JAL can only trap where bit 1 of its immediate, bit 21 of the word, is set: its target is no multiple of 4."""
    return None if word >> 21 & 1 else Instruction(JAL, (), destination(word))


def jalr(word: int) -> "Optional[Instruction]":
    return Instruction(JALR, (first(word),), destination(word)) if funct3(word) == 0 else None


def branch(word: int) -> "Optional[Instruction]":
    return Instruction(BRANCH, (first(word), second(word)), 0) if funct3(word) not in (2, 3) else None


def load(word: int) -> "Optional[Instruction]":
    return Instruction(LOAD, (first(word),), destination(word)) if funct3(word) in (0, 1, 2, 4, 5) else None


def store(word: int) -> "Optional[Instruction]":
    return Instruction(STORE, (first(word), second(word)), 0) if funct3(word) in (0, 1, 2) else None


def with_immediate(word: int) -> "Optional[Instruction]":
    """Shifts have fixed bits above their amount; the other forms have an immediate there."""
    fixed = {1: (0,), 5: (0, 0x20)}.get(funct3(word))
    if fixed and funct7(word) not in fixed:
        return None
    return Instruction(ARITHMETIC, (first(word),), destination(word))


def with_registers(word: int) -> "Optional[Instruction]":
    legal = {0: range(8), 0x20: (0, 5), 1: range(8)}.get(funct7(word), ())
    if funct3(word) not in legal:
        return None
    kind = ARITHMETIC if funct7(word) != 1 else MULTIPLICATION if funct3(word) < 4 else DIVISION
    return Instruction(kind, (first(word), second(word)), destination(word))


def fence(word: int) -> "Optional[Instruction]":
    return Instruction(ARITHMETIC, (), 0) if funct3(word) == 0 else None


FORMS = {
    0x37: upper, 0x17: upper, 0x6F: jal, 0x67: jalr, 0x63: branch, 0x03: load, 0x23: store,
    0x13: with_immediate, 0x33: with_registers, 0x0F: fence,
}
