"""Counts by the address of an instruction, and by the function that it stands in."""
from typing import Any, Optional, TYPE_CHECKING

from .reasons import (
    ADDRESS_PORT, BASE, DATA, DATA_PORT, DEFENCE, DIVIDER, MISS_REGISTER, OLDER_STORE, ONE_A_CYCLE, ONE_CLEARED, OPERAND, PORT, STORE_ADDRESS,
    STORE_DATA, TWO_REGISTERS)

if TYPE_CHECKING:
    from wadrelwy.view.image import Image
    from wadrelwy.view.items import Item
    from wadrelwy.view.slots import Slots

# what is counted of waits, in cycles, by column
GROUPS = {OPERAND: "operand", BASE: "operand", DATA: "operand", OLDER_STORE: "store", STORE_ADDRESS: "store", STORE_DATA: "store", PORT: "port",
          ADDRESS_PORT: "port", DATA_PORT: "port", ONE_A_CYCLE: "port", ONE_CLEARED: "port", MISS_REGISTER: "port", TWO_REGISTERS: "port",
          DIVIDER: "port", **dict.fromkeys(DEFENCE, "defence")}
COLUMNS = ("retired", "squashed", "operand", "store", "port", "defence", "misses", "mispredicted")
NOWHERE = "(no entry)"


def function_of(image: "Image", pc: Optional[int]) -> str:
    """The function that an address stands in, by the image's symbols; else what its place is."""
    if pc is None:
        return NOWHERE
    return image.function(pc) or "(no symbol)"


def nothing_of(image: "Image", function: str, spanned: bool = False) -> str:
    """What is told where nothing of a function was fetched, with the names of its parts, as compilers call them, that the image has."""
    names = {image.shown.get(name, name) for _, _, name in image.symbols}
    parts = sorted(name for name in names if name.startswith(function + "."))
    has = "" if function in names else "; the image has no such symbol" + (
        f", but {', '.join(parts)}" if parts else "")
    return f"no instruction of <{function}> was fetched" + (" in these cycles" if spanned else "") + has


class Places:
    """For each address the numbers of COLUMNS: instructions that retired or were squashed, cycles waited (by operands, by older stores, by
    ports, miss registers and the divider, by the defence), loads that missed and mispredictions."""

    def __init__(self) -> None:
        self.counts: dict = {}

    def add(self, item: "Item") -> None:
        found = self.counts.get(item.pc)
        if found is None:
            found = self.counts[item.pc] = dict.fromkeys(COLUMNS, 0)
        found["retired"] += item.retired is not None
        found["squashed"] += item.squashed is not None
        found["mispredicted"] += item.mispredicted
        found["misses"] += item.is_load and item.unit in ("miss", "second")
        for wait in item.waits:
            found[GROUPS[wait.reason]] += wait.last - wait.first + 1


def merged(rows: Any) -> dict:
    """The sums of several addresses' numbers."""
    sums = dict.fromkeys(COLUMNS, 0)
    for row in rows:
        for name, number in row.items():
            sums[name] += number
    return sums


def slots_by_address(slots: "Slots") -> dict:
    """All slots that are charged to an address: those in which it retired, and those that were lost for it."""
    found = dict(slots.retired)
    for (_, pc), number in slots.lost.items():
        found[pc] = found.get(pc, 0) + number
    return found


def by_function(image: "Image", numbers: dict) -> dict:
    """Numbers by address, summed by function."""
    found: dict = {}
    for pc, number in numbers.items():
        name = function_of(image, pc)
        found[name] = found.get(name, 0) + number
    return found
