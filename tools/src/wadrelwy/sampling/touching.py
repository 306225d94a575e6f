"""Code that loads the lines of memory which a program may have in the caches, so that a core doesn't begin with empty ones. Which of them were
there can't be known: it is all lines of data that aren't zero, and behind them once more those that changed last, which the program is at work
on: so these are in the first level."""
import heapq
from typing import Iterable, Sequence

from wadrelwy.going_on.stub import setting
from wadrelwy.riscv.encoding import addi, branch, lw

# so many stretches of lines are gone over at most, twice, each by a loop of its own
MOST_STRETCHES = 40
# two `setting`s, and the loop
WORDS = 7
SIZE = 2 * 4 * WORDS * MOST_STRETCHES
# so many lines are looked at together whether they are zero
MANY = 64
BLTU = 6
AT, END, LOADED = 1, 2, 3

Stretch = tuple[int, int]


def lines_of(memory: bytes, base: int, line: int, codes: Sequence[Stretch]) -> list[int]:
    """The addresses of the lines that aren't zero and have no code."""
    zeros, coded = bytes(line), {address for low, high in codes for address in range(low - low % line, high, line)}
    part, first, end = MANY * line, -base % line, len(memory) - line + 1
    parts = [at for at in range(first, end, part) if memory[at:at + part] != bytes(len(memory[at:at + part]))]
    found = [base + at for low in parts for at in range(low, min(low + part, end), line) if memory[at:at + line] != zeros]
    return [address for address in found if address not in coded]


def lines_in(changed: Iterable[tuple[int, bytes]], line: int) -> set[int]:
    """The addresses of the lines that these stretches of memory touch."""
    return {address for start, data in changed for address in range(start - start % line, start + len(data), line)}


def chosen(lines: list[int], late: set[int], most: int) -> list[int]:
    """At most so many of the lines: those that changed late, and of the others from the lowest on."""
    if len(lines) <= most:
        return lines
    return sorted(sorted(lines, key=lambda address: (address not in late, address))[:most])


def stretches(lines: Sequence[int], line: int) -> list[Stretch]:
    """The lines in at most MOST_STRETCHES stretches: gaps between two are gone over, too, but for the largest."""
    gaps = [(after - before, at) for at, (before, after) in enumerate(zip(lines, lines[1:]), 1) if after - before > line]
    breaks = sorted(at for _, at in heapq.nlargest(MOST_STRETCHES - 1, gaps))
    return [(lines[low], lines[high - 1] + line) for low, high in zip([0, *breaks], [*breaks, len(lines)]) if high]


def touching(found: Sequence[Stretch], line: int) -> tuple[bytes, int]:
    """The code that loads a word of each line of these stretches, and how many steps it takes."""
    words, steps = [], 0
    for low, high in found:
        words += [*setting(AT, low), *setting(END, high), lw(LOADED, 0, AT), addi(AT, AT, line), branch(BLTU, AT, END, -8)]
        steps += 4 + 3 * ((high - low) // line)
    return b"".join(word.to_bytes(4, "little") for word in words), steps
