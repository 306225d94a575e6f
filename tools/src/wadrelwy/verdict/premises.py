"""The premises of noninterference, for two images under one description (docs/theorems.md, "Noninterference").

The traces of two images are proved equal where they have one entry and one code, and their memories agree on each byte that the
path loads."""
from typing import Iterator, NamedTuple, TYPE_CHECKING

from .path import Path, walk

if TYPE_CHECKING:
    from wadrelwy.verdict.loaded import Loaded
    from wadrelwy.view.description import Description


class Premises(NamedTuple):
    """`code` has the addresses of the words that differ, `memory` those of the bytes, `shown` those of them that the path loads, each
    with the pc of its first load."""
    one_entry: bool
    code: list
    memory: list
    shown: dict
    path: Path

    @property
    def met(self) -> bool:
        return self.one_entry and not self.code and not self.shown


def premises(one: "Loaded", two: "Loaded", description: "Description", retired: int) -> "Premises":
    """Of two images, where the machine retires so many instructions of the first: the path goes on for as many more as the window
    may hold."""
    path = walk(one, description.model, retired + description.rob)
    memory = [one.base + at for at in unequal(one.memory, two.memory)]
    code = sorted(address for address in one.words.keys() | two.words.keys() if one.words.get(address) != two.words.get(address))
    shown = {address: path.loads[address] for address in memory if address in path.loads}
    return Premises(one.entry == two.entry, code, memory, shown, path)


def unequal(one: bytearray, two: bytearray, part: int = 4096) -> Iterator:
    """The places at which two rows of bytes differ."""
    for start in range(0, len(one), part):
        a, b = one[start:start + part], two[start:start + part]
        if a != b:
            yield from (start + at for at, (x, y) in enumerate(zip(a, b)) if x != y)
