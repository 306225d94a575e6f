"""How a value was made of a secret byte. It stands beside the compiled modules, since no NamedTuple is compiled."""
from typing import NamedTuple

# so many instructions of a chain are kept, its last ones
MOST_OF_CHAIN = 12


class Chain(NamedTuple):
    """How a value was made of a marked byte: the byte's address; the addresses of the load of it and of the last instructions that handed it on,
    one by one; and how many they were in all. There may be other ways to the value than this one."""
    byte: int
    last: tuple[int, ...] = ()
    length: int = 0

    def on(self, pc: int) -> "Chain":
        """It with one instruction more."""
        return Chain(self.byte, (*self.last[1 - MOST_OF_CHAIN:], pc), self.length + 1)
