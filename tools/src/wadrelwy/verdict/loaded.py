"""An image as the simulator loads it: besides code and symbols its entry and all of memory (docs/formats.md, "Images")."""
from typing import Any, Optional

from wadrelwy.elf import ELFFile
from wadrelwy.view import Fault
from wadrelwy.view.description import Description
from wadrelwy.view.image import Image

# memory where no description gives it (docs/formats.md, "Words")
ISA_BASE, ISA_SIZE = 0x00010000, 1 << 20


class Loaded(Image):
    """`memory` is the bytes from `base` on after loading; `misaligned` says whether accesses to it may have any address."""

    def __init__(self, name: str, base: int, size: int, misaligned: bool = False) -> None:
        super().__init__(name)
        self.name, self.base, self.memory, self.misaligned = name, base, bytearray(size), bool(misaligned)
        with open(name, "rb") as file:
            elf = ELFFile(file)
            self.entry = elf["e_entry"]
            for segment in elf.iter_segments("PT_LOAD"):
                if segment["p_memsz"]:
                    self.place(segment)

    def place(self, segment: Any) -> None:
        """The segment's bytes of the file, and 0 past them; a later segment stands over an earlier one."""
        start, size = segment["p_vaddr"] - self.base, segment["p_memsz"]
        if start < 0 or start + size > len(self.memory):
            raise Fault(f"{self.name}: a segment takes {start + self.base:08x} to {start + self.base + size - 1:08x}, "
                        f"and memory is {self.base:08x} to {self.base + len(self.memory) - 1:08x}")
        self.memory[start:start + size] = segment.data().ljust(size, b"\0")

    def named(self, address: int) -> str:
        """An address with its symbol: `00010018 <victim+0x8>`."""
        symbol = self.symbol(address)
        return f"{address:08x} <{symbol}>" if symbol else f"{address:08x}"


def load(name: str, machine: Optional[Description]) -> "Loaded":
    """The image of a file in the memory of a description; without one in that of `isa`."""
    if machine is None:
        return Loaded(name, ISA_BASE, ISA_SIZE)
    return Loaded(name, machine.base, machine.size, bool(machine.misaligned))
