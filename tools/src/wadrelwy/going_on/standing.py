"""Where a run of the instruction set stands after some steps: its registers, its pc and all of memory, and the image's code."""
from typing import NamedTuple

from wadrelwy import Fault
from wadrelwy.verdict import simulator
from wadrelwy.verdict.loaded import Loaded
from wadrelwy.view.image import words_of

from .report import Report, read_report

# memory of a run of `isa` without a description (docs/formats.md, "Words")
BASE, SIZE = 0x00010000, 1 << 20


class Standing(NamedTuple):
    """`image` is as it was loaded, `memory` the bytes from its base on as they are now, `touched` the addresses of the rows that changed."""
    image: Loaded
    report: Report
    memory: bytes
    touched: frozenset[int]


def stands(program: str, image: Loaded, steps: int, description: str | None) -> Standing:
    """Where the run stands after so many steps. A run that has ended by then is refused, as is one that wrote over its own code."""
    words = ["--desc", description] if description else []
    report = read_report(simulator.run(program, "isa", image.name, "--steps", str(steps), *words))
    if not report.goes_on:
        raise Fault(f"{image.name}: the run ends after {report.retired} steps ({report.end}), so nothing goes on after {steps}")
    memory = bytearray(image.memory)
    for address, data in report.changed:
        memory[address - image.base:address - image.base + len(data)] = data
    standing = Standing(image, report, bytes(memory), frozenset(report.rows))
    see_code(standing)
    return standing


def see_code(standing: Standing) -> None:
    """Refuses a run that wrote over a word of its code: the run goes on with the old word, and an image that is loaded has one word for both."""
    image = standing.image
    for start, data in image.pieces:
        now = standing.memory[start - image.base:start - image.base + len(data)]
        if now == data:
            continue
        for address, word in words_of([(start, now)]).items():
            if word != image.words[address]:
                raise Fault(f"{image.name}: the run has written over its code at {image.named(address)}, and an image can't have both words")
