"""`annotate`: a function's source lines or its instructions, with counts beside each.

The columns: how often it retired; the cycles that are charged to it (`stack`); the cycles that its instructions waited for operands, for
older stores, for a port, a miss register or the divider, and by the defence; its loads that missed, its mispredictions. Waits of several
instructions overlap, charged cycles don't.
"""
from typing import Iterator, Optional, TYPE_CHECKING

from .places import COLUMNS, function_of, merged, slots_by_address

if TYPE_CHECKING:
    from wadrelwy.view.stats import Run

HEADER = (f"{'retired':>9}{'cycles':>11}{'operand':>9}{'store':>8}{'port':>8}{'defence':>9}{'misses':>8}{'mispred':>8}")


def lines_of(run: "Run", by_source: bool) -> Iterator[str]:
    """A table for each function, that with the most cycles first; by source lines where the image tells them and it is asked for."""
    slots, width = slots_by_address(run.slots), run.slots.width
    functions: dict = {}
    for pc in {*run.places.counts, *slots} - {None}:
        functions.setdefault(function_of(run.image, pc), []).append(pc)
    order = sorted(functions, key=lambda name: (-sum(slots.get(pc, 0) for pc in functions[name]), name))
    for number, name in enumerate(order):
        addresses = sorted(functions[name])
        cycles = sum(slots.get(pc, 0) for pc in addresses) / width
        yield ("\n" if number else "") + f"{name}: {cycles:.2f} of {run.cycles} cycles"
        yield HEADER
        write = source_lines if by_source and any(map(run.image.sources.line, addresses)) else instruction_lines
        yield from write(run, name, addresses, slots)


def counted(run: "Run", addresses: list, slots: dict) -> str:
    """The columns of these addresses together."""
    sums = merged(run.places.counts[pc] for pc in addresses if pc in run.places.counts)
    cycles = sum(slots.get(pc, 0) for pc in addresses) / run.slots.width
    shown = [sums[name] or "" for name in COLUMNS]
    retired, _, operand, store, port, defence, misses, wrong = shown
    return f"{retired:>9}{f'{cycles:.2f}' if cycles else '':>11}{operand:>9}{store:>8}{port:>8}{defence:>9}{misses:>8}{wrong:>8}"


def instruction_lines(run: "Run", name: str, addresses: list, slots: dict) -> Iterator[str]:
    """Every instruction of the function, also those that were never fetched."""
    inside = [pc for pc in run.image.words if addresses[0] <= pc <= addresses[-1] or function_of(run.image, pc) == name]
    for pc in sorted(pc for pc in {*inside, *addresses} if function_of(run.image, pc) == name):
        source = run.image.sources.told(pc)
        yield f"{counted(run, [pc], slots)}  {run.disassembler.address_and_text(pc)}" + (f"  {source}" if source else "")


def source_lines(run: "Run", name: str, addresses: list, slots: dict) -> Iterator[str]:
    """The lines of each file that the function's instructions come from, from the first to the last that has any."""
    lines: dict = {}
    without = []
    for pc in addresses:
        line = run.image.sources.line(pc)
        if line is None:
            without.append(pc)
        else:
            lines.setdefault(line.path, {}).setdefault(line.number, []).append(pc)
    for path, numbers in sorted(lines.items(), key=lambda entry: -sum(map(len, entry[1].values()))):
        text = text_of(path)
        yield f"{'':70}  {run.image.sources.names[path]}" + ("" if text else f": {path} can't be read")
        for number in range(min(numbers), max(numbers) + 1):
            if number in numbers or text:
                code = text[number - 1] if text and number <= len(text) else ""
                yield f"{counted(run, numbers.get(number, []), slots)}  {number:5} {code}".rstrip()
    if without:
        yield f"{counted(run, without, slots)}  instructions without a line"


def text_of(path: str) -> Optional[list]:
    """The lines of a source file; none where it can't be read."""
    try:
        with open(path, encoding="utf-8", errors="replace") as file:
            return file.read().splitlines()
    except OSError:
        return None
