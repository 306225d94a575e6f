"""What a program publishes: the bytes that it writes to public streams, by a run of the instruction set (docs/secrets.md, "Make something
public")."""
import copy
from typing import Iterator, NamedTuple, Optional, Sequence

from wadrelwy.view import Fault

from .hart import Hart
from .loaded import Loaded
from .report import plural
from .secrecy import Answer

# so many bytes are told
MOST_TOLD = 64


class Output(NamedTuple):
    """What so many steps of the instruction set write to some streams, one call behind the other."""
    streams: Sequence[int]
    steps: int
    data: bytes


def pieces(hart: Hart, streams: Sequence[int], steps: int) -> Iterator[bytes]:
    """What each call of so many steps writes to these streams."""
    registers, out = hart.registers, hart.out
    for _ in range(steps):
        if hart.end is not None:
            return
        stream, calls = registers[10], len(out)
        hart.advance()
        if len(out) > calls and stream in streams:
            yield out[-1]


def output(image: Loaded, streams: Sequence[int], most: int) -> Output:
    """What at most so many steps of an image publish, and how many steps it takes."""
    hart = Hart(image)
    data = b"".join(pieces(hart, streams, most))
    return Output(streams, hart.retired, data)


def checked(found: Output, answer: Answer, name: str) -> bytes:
    """The bytes that are published, where they are as many, in as many steps, as the program says."""
    steps = answer.end.retired if answer.end else 0
    if (len(found.data), found.steps) != (answer.published, steps):
        raise Fault(f"{name}: the program says that it publishes {plural(answer.published or 0, 'byte')} in {plural(steps, 'step')}, and by the "
                    f"instruction set it publishes {plural(len(found.data), 'byte')} in {found.steps}: this answer isn't of this image")
    return found.data


def of_answer(image: Loaded, streams: Sequence[int], answer: Answer) -> Optional[bytes]:
    """The bytes that a run published of which the program says how many; none where it says nothing of them."""
    if answer.published is None or answer.end is None:
        return None
    return checked(output(image, streams, answer.end.retired), answer, image.name)


def with_value(image: Loaded, secret: list, value: bytes) -> Loaded:
    """The image with another value of these ranges' bytes in its memory."""
    other = copy.copy(image)
    other.memory = bytearray(image.memory)
    addresses = [address for each in secret for address in each.addresses]
    for address, byte in zip(addresses, value, strict=True):
        other.memory[address - image.base] = byte
    return other


def is_published(image: Loaded, wanted: Output) -> bool:
    """Whether an image publishes just this in as many steps; it is run up to the first byte that differs."""
    found = b""
    for piece in pieces(Hart(image), wanted.streams, wanted.steps):
        found += piece
        if not wanted.data.startswith(found):
            return False
    return found == wanted.data


def told_streams(streams: Sequence[int]) -> str:
    """As a line: `stream 2`, `streams 1 and 2`, `no stream`."""
    if not streams:
        return "no stream"
    return f"stream{'s' if len(streams) > 1 else ''} {' and '.join(map(str, streams))}"


def told(data: bytes) -> str:
    """As a line: `4 bytes, 01000000`; of many the first."""
    more = f" and {len(data) - MOST_TOLD} more" if len(data) > MOST_TOLD else ""
    return f"{plural(len(data), 'byte')}, {data[:MOST_TOLD].hex()}{more}" if data else "0 bytes"
