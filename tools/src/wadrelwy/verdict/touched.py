"""What the path does with some bytes first: does it load them, or write over them? What is written over before it is loaded is no secret of
memory as it was loaded (docs/secrets.md, "What it asks for")."""
from typing import NamedTuple

from .hart import Hart


class Touched(NamedTuple):
    """Of so many bytes, how many the path loads, and how many it writes over before it loads them."""
    size: int
    loaded: int
    overwritten: int


def look(image, secret, steps):
    """What a run of the instruction set does first with each byte of these ranges, in so many steps."""
    left = {address for each in secret for address in each.addresses}
    size, loaded, overwritten = len(left), 0, 0
    hart, low, high = Hart(image), min(left), max(left)
    for _ in range(steps):
        if hart.end is not None or not left:
            break
        decoded = hart.advance()
        if decoded is None or not hart.size or hart.address > high or hart.address + hart.size <= low:
            continue
        first = left.intersection(range(hart.address, hart.address + hart.size))
        left -= first
        if decoded.is_load:
            loaded += len(first)
        else:
            overwritten += len(first)
    return Touched(size, loaded, overwritten)


def told(found):
    """As a line: `16 of these 16 bytes are loaded`."""
    rest = f"; {found.overwritten} {'is' if found.overwritten == 1 else 'are'} written over before" if found.overwritten else ""
    return f"loads {found.loaded} of these {found.size} bytes{rest}"
