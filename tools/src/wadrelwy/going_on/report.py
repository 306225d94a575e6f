"""The report of `isa` as values (docs/formats.md, "The report")."""
import re
import struct
from binascii import Error, unhexlify
from typing import NamedTuple

from wadrelwy import Fault

REGISTER = re.compile(r"x(\d+) ([0-9a-f]{8})")
PC = re.compile(r"pc ([0-9a-f]{8})")
END = re.compile(r"end (exit \d+|trap \d+ [0-9a-f]{8}|budget) retired (\d+)")
# a row of memory, `mem 0001fff0 ffff0000ffffffff0000000000000000`: how many bytes it has, those of its line that are alike in all lines, and where
# the others begin
ROW, LINE = 16, 46
FRAME = {0: b"m", 1: b"e", 2: b"m", 3: b" ", 12: b" ", 45: b"\n"}
ADDRESS, BYTES = 4, 13

Stretch = tuple[int, bytes]


class Report(NamedTuple):
    """What a run left: the values of the 32 registers, the pc, the memory that changed in stretches of whole rows by rising address, how it
    ended (`exit 0`, `trap 5 00010008`, `budget`), how many instructions retired, and the lines of its output."""
    registers: list[int]
    pc: int
    changed: tuple[Stretch, ...]
    end: str
    retired: int
    out: tuple[str, ...] = ()

    @property
    def goes_on(self) -> bool:
        """Whether the run stands where the budget ended it, so that there is something to go on with."""
        return self.end == "budget"

    @property
    def rows(self) -> dict[int, bytes]:
        """The rows of memory that changed by their addresses."""
        return {start + at: data[at:at + ROW] for start, data in self.changed for at in range(0, len(data), ROW)}


def other_text() -> Fault:
    return Fault("that is no report of isa, or one that was cut: is the program the simulator?")


def columns(block: bytes, first: int, width: int) -> bytearray:
    """Of each line the bytes from `first` on, one line's behind the other's."""
    found = bytearray(len(block) // LINE * width)
    for at in range(width):
        found[at::width] = block[first + at::LINE]
    return found


def changed_in(block: bytes) -> tuple[Stretch, ...]:
    """The memory that these lines tell. They are some ten thousand, so they are taken column by column."""
    count = len(block) // LINE
    if len(block) % LINE or any(block[at::LINE].count(letter) != count for at, letter in FRAME.items()):
        raise other_text()
    try:
        data = unhexlify(columns(block, BYTES, 2 * ROW))
        addresses = struct.unpack(f">{count}I", unhexlify(columns(block, ADDRESS, 8)))
    except Error:
        raise other_text() from None
    begins = [at for at in range(count) if not at or addresses[at] != addresses[at - 1] + ROW]
    return tuple((addresses[low], data[low * ROW:high * ROW]) for low, high in zip(begins, [*begins[1:], count]))


def read_report(text: str) -> Report:
    """The report of a text. A text that is none, or is cut, is refused."""
    registers: list[int] = []
    out: list[str] = []
    pc, end = None, None
    first = text.find("\nmem ") + 1
    last = text.find("\n", text.rfind("\nmem ") + 1) + 1 if first else 0
    for line in (text[:first] + text[last:]).splitlines():
        if found := REGISTER.fullmatch(line):
            registers.append(int(found[2], 16))
        elif found := PC.fullmatch(line):
            pc = int(found[1], 16)
        elif found := END.fullmatch(line):
            end = found
        elif line.startswith("out "):
            out.append(line)
    if len(registers) != 32 or pc is None or end is None:
        raise other_text()
    return Report(registers, pc, changed_in(text[first:last].encode()), end[1], int(end[2]), tuple(out))
