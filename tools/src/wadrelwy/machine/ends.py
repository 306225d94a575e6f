"""What ended a run: of a trap its name, the instruction with its function and its line, and the address that was accessed."""
import re
from typing import Mapping, NamedTuple, Optional

from wadrelwy import Fault
from wadrelwy.riscv.kinds import LOAD, STORE
from wadrelwy.riscv.operation import decode, effect
from wadrelwy.view.disassembly import Disassembler
from wadrelwy.view.image import Image

# docs/instruction-set.md has the causes; a likely reason stands in docs/using.md, "Statuses"
CAUSES = {
    0: "a jump to an address that is no multiple of 4", 1: "a jump to an address that isn't code", 2: "an instruction that isn't RV32IM",
    3: "ebreak", 4: "a load whose address is no multiple of its width", 5: "a load outside memory",
    6: "a store whose address is no multiple of its width", 7: "a store outside memory",
}
END = re.compile(r"end (?:exit (?P<value>\d+)|trap (?P<cause>[0-7]) (?P<pc>[0-9a-f]{8})|(?P<budget>budget)) retired (?P<retired>\d+).*")


class End(NamedTuple):
    """How a run ended: a trap's cause and address where it was one, or whether by its budget; and how many instructions retired."""
    cause: Optional[int]
    pc: int
    is_cut: bool
    retired: int


def read(line: str) -> Optional[End]:
    """What a last line says; none where it is no such line."""
    found = END.fullmatch(line)
    if found is None:
        return None
    cause = int(found["cause"]) if found["cause"] else None
    return End(cause, int(found["pc"] or "0", 16), bool(found["budget"]), int(found["retired"]))


def accessed(image: Image, pc: int, registers: Mapping[int, int]) -> Optional[int]:
    """The address that the load or store at `pc` accesses, with these registers; none where it is no such instruction."""
    word = image.words.get(pc)
    operation = decode(word) if word is not None else None
    if operation is None or operation.code.kind not in (LOAD, STORE):
        return None
    return effect(operation, pc, registers[operation.code.sources[0]]).address


def trap(end: End, path: Optional[str], registers: Mapping[int, int]) -> str:
    """A trap as a line: `trap 5, a load outside memory, of 00000000, by 00010014 lw a5, 0(zero) <main+0x4> a.c:1`. The image may be none,
    and the registers, where they aren't known."""
    what = f"trap {end.cause}, {CAUSES[end.cause or 0]}"
    try:
        image = Image(path) if path else None
    except Fault:
        image = None
    if image is None:
        return f"{what}, at {end.pc:08x}"
    texts = Disassembler(image)
    if end.pc not in image.words:
        caller = f"; x1 holds {named(image, registers[1])}, behind the last call or return" if registers else ""
        return f"{what}, to {named(image, end.pc)}{caller}"
    address = accessed(image, end.pc, registers) if registers else None
    of = f", of {address:08x}" if address is not None else ""
    return f"{what}{of}, by {texts.place(end.pc)}"


def named(image: Image, address: int) -> str:
    """An address with its symbol and line, if it has any."""
    symbol, line = image.symbol(address), image.sources.told(address)
    return f"{address:08x}" + (f" <{symbol}>" if symbol else "") + (f" {line}" if line else "")
