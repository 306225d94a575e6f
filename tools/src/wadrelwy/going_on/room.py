"""A place for the stub: memory that no segment takes and that the run has left as it was."""
from typing import Iterator

from wadrelwy import Fault

from .standing import Standing
from .stub import BACK, FORTH, SIZE, reaches

ROW = 16


def gaps(standing: Standing) -> Iterator[tuple[int, int]]:
    """The ranges of whole rows that no segment takes, that are all 0 and that didn't change."""
    image, behind = standing.image, standing.image.base
    end = image.base + len(image.memory)
    taken = [(low - low % ROW, high + -high % ROW) for low, high in image.ranges] + [(row, row + ROW) for row in standing.touched]
    for low, high in sorted([*taken, (end, end)]):
        if behind < low:
            yield behind, low
        behind = max(behind, high)


def middle(low: int, high: int, pc: int, size: int) -> int | None:
    """The place in a gap, a multiple of 16, that is nearest to its middle and from which a jump reaches the pc."""
    # how far behind the place the jump stands
    jump = size - 4
    least, most = max(low, pc - FORTH - jump), min(high - size, pc - BACK - jump)
    first, last = least + -least % ROW, most - most % ROW
    nearest = (low + high - size + ROW - 1) // (2 * ROW) * ROW
    return min(max(nearest, first), last) if first <= last else None


def find_room(standing: Standing, size: int = SIZE) -> int:
    """The place for the stub, with what stands before it so many bytes, in the middle of the largest gap: a heap grows up from a gap's low end,
    a stack down from its high one."""
    pc = standing.report.pc
    for low, high in sorted(gaps(standing), key=lambda gap: gap[0] - gap[1]):
        place = middle(low, high, pc, size)
        if place is not None:
            return place
    raise Fault(f"{standing.image.name}: no {size} bytes within 1 MiB of the pc {pc:08x} that no segment takes and the run has left alone; "
                "--at ADDRESS names a place that the program doesn't use")


def named_room(standing: Standing, address: int, size: int = SIZE) -> int:
    """The place that was named, if the stub, with what stands before it so many bytes, may stand there."""
    image, pc = standing.image, standing.report.pc
    if address % 4:
        raise Fault(f"--at {address:#x}: code stands at multiples of 4")
    if not any(low <= address and address + size <= high for low, high in gaps(standing)):
        raise Fault(f"--at {address:#x}: these {size} bytes aren't all of memory that no segment takes and the run has left alone")
    if not reaches(address + size - SIZE, pc):
        raise Fault(f"--at {address:#x}: a jump from there doesn't reach the pc {pc:08x}, which is more than 1 MiB away")
    return address
