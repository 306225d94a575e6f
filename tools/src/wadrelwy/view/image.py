"""An ELF image: its code, its symbols and the lines of its sources (docs/formats.md, "Images")."""
import bisect
import shutil
import subprocess
from functools import cached_property
from typing import Any, TYPE_CHECKING

from wadrelwy.elf import ConstructError, ELFError, ELFFile, P_FLAGS
from wadrelwy.machine import notes
from wadrelwy.machine.notes import BUILD
from wadrelwy.riscv.kinds import instruction_of

from . import Fault
from .sources import read_sources

if TYPE_CHECKING:
    from wadrelwy.riscv.kinds import Instruction
    from wadrelwy.view.sources import Sources


# of `e_flags`
COMPRESSED = 1
# what tells the names of C++, of binutils for the host or for RISC-V
FILTERS = ("c++filt", "riscv64-unknown-elf-c++filt", "riscv64-linux-gnu-c++filt")


class Image:
    """The words of code by their addresses, and the names of addresses."""

    def __init__(self, name: str) -> None:
        self.name = name
        try:
            with open(name, "rb") as file:
                elf = ELFFile(file)
                check(elf, name)
                segments = [load for load in elf.iter_segments("PT_LOAD") if load["p_memsz"]]
                self.ranges = [(load["p_vaddr"], load["p_vaddr"] + load["p_memsz"]) for load in segments]
                self.pieces = pieces_of_code(segments)
                self.symbols = symbols_of(elf)
        except OSError as error:
            raise Fault(f"{name}: {error.strerror}") from None
        except (ELFError, ConstructError, LookupError, ValueError, AttributeError, TypeError, AssertionError, ArithmeticError) as error:
            # what pyelftools meets in a file whose tables are damaged has no one name
            raise Fault(f"{name}: no ELF image ({error})") from None
        self.words = words_of(self.pieces)
        self.addresses = [address for address, _, _ in self.symbols]
        self.shown = demangled([name for _, _, name in self.symbols])
        self.known: dict = {}

    def instruction(self, pc: int) -> "Instruction":
        """The instruction at an address; outside code it is one that can only trap."""
        return instruction_of(self.words.get(pc))

    def symbol(self, address: int) -> str:
        """`main+0x10`, or nothing where no symbol's bytes or segment has the address. Names of C++ are as its sources have them."""
        name, start = self.nearest(address)
        return self.shown.get(name, name) + (f"+0x{address - start:x}" if address != start else "")

    def function(self, address: int) -> str:
        """The same without how far behind the symbol's start it is."""
        name, _ = self.nearest(address)
        return self.shown.get(name, name)

    def function_named(self, function: str) -> str:
        """A function's name as it is shown: given so, as linkers have it, or as sources have it, without its parameters or what a compiler put
        behind it (`verify.constprop.0`), where one has it."""
        if any(name == function for _, _, name in self.symbols):
            return self.shown.get(function, function)
        found = {shown for shown in self.shown.values() if without_parameters(shown) == function}
        found = found or {name for _, _, name in self.symbols if name.split(".")[0] == function}
        if len(found) > 1:
            raise Fault(f"{self.name} has several of `{function}`: {'; '.join(sorted(found))}")
        return found.pop() if found else function

    def nearest(self, address: int) -> tuple:
        """The name and the start of the symbol that has an address; no name, and the address, where none has it."""
        if address not in self.known:
            self.known[address] = self.find_nearest(address)
        return self.known[address]

    @cached_property
    def sources(self) -> "Sources":
        """File and line of each address; empty unless the image was built with `-g`. Read when it is first asked."""
        return read_sources(self.name)

    def find_nearest(self, address: int) -> tuple:
        """The nearest symbol whose bytes have the address, else the nearest one before it that has no size, in its segment."""
        unsized = None
        for start, size, name in reversed(self.symbols[:bisect.bisect_right(self.addresses, address)]):
            if address < start + size:
                return name, start
            if size == 0 and unsized is None and self.one_segment(start, address):
                unsized = name, start
        return unsized or ("", address)

    def one_segment(self, first: int, second: int) -> bool:
        return any(low <= first < high and low <= second < high for low, high in self.ranges)


def check(elf: Any, name: str) -> None:
    """Refuses an image that isn't for this machine, as the simulator does: of another width or machine, not linked, or of compressed code."""
    why = next(filter(None, (
        elf.elfclass != 32 and f"a {elf.elfclass}-bit image: {BUILD}",
        elf["e_machine"] != "EM_RISCV" and "an image for another machine than RISC-V",
        elf["e_type"] != "ET_EXEC" and notes.file_type({"ET_REL": "1", "ET_DYN": "3"}.get(elf["e_type"], "")),
        elf["e_flags"] & COMPRESSED and "compressed code: no `c` in -march, as -march=rv32im")), None)
    if why:
        raise Fault(f"{name}: {why}")


def demangled(names: list) -> dict:
    """Names that a compiler of C++ made, by what they are in its sources; none where no `c++filt` is there to tell."""
    mangled = sorted({name for name in names if name.startswith("_Z")})
    tool = next((found for found in map(shutil.which, FILTERS) if found), None)
    if not mangled or tool is None:
        return {}
    answer = subprocess.run([tool], input="".join(name + "\n" for name in mangled), capture_output=True, text=True, check=False)
    shown = answer.stdout.splitlines()
    return dict(zip(mangled, shown)) if answer.returncode == 0 and len(shown) == len(mangled) else {}


def without_parameters(shown: str) -> str:
    """`Table<int>::at` of `Table<int>::at(int) const [clone .isra.0]`: what stands before the last parentheses."""
    end = shown.rfind(")")
    depth = 0
    for at in range(end, -1, -1):
        depth += (shown[at] == ")") - (shown[at] == "(")
        if depth == 0:
            return shown[:at] if shown[at] == "(" else shown
    return shown


def pieces_of_code(segments: list) -> list:
    """Address and bytes of each executable segment's part that is in the file, as memory holds it after loading.

    Segments are placed in the order of their headers, so a later one lies over an earlier one, with its zero bytes too.
    """
    pieces = []
    for number, segment in enumerate(segments):
        if segment["p_flags"] & P_FLAGS.PF_X:
            start, data = segment["p_vaddr"], bytearray(segment.data())
            for later in segments[number + 1:]:
                whole = later.data().ljust(later["p_memsz"], b"\0")
                lay_over(start, data, later["p_vaddr"], whole)
            pieces.append((start, bytes(data)))
    return pieces


def lay_over(start: int, data: bytearray, address: int, whole: bytes) -> None:
    """Writes the bytes `whole` from their address on over those of `data`, where the two have addresses in common."""
    low, high = max(start, address), min(start + len(data), address + len(whole))
    if low < high:
        data[low - start:high - start] = whole[low - address:high - address]


def words_of(pieces: list) -> dict:
    """The word at each multiple of 4 whose four bytes lie in one piece."""
    words = {}
    for start, data in pieces:
        for address in range(start + -start % 4, start + len(data) - 3, 4):
            words[address] = int.from_bytes(data[address - start:address - start + 4], "little")
    return words


def symbols_of(elf: Any) -> list:
    """Address, size and name of each symbol that names a place, by address; the one with a size comes last, and is found."""
    table = elf.get_section_by_name(".symtab")
    found = []
    for symbol in table.iter_symbols() if table else ():
        placed = symbol["st_shndx"] not in ("SHN_UNDEF", "SHN_ABS")
        named = symbol["st_info"]["type"] in ("STT_NOTYPE", "STT_FUNC", "STT_OBJECT")
        if placed and named and symbol.name and not symbol.name.startswith(("$", ".L")):
            found.append((symbol["st_value"], symbol["st_size"], symbol.name))
    return sorted(found)
