"""`why`: the reason of each wait, and of each cycle in which rename stops short."""
from collections import Counter
from typing import Any, Iterator, Optional, TYPE_CHECKING

from . import Fault
from .items import NEVER
from .places import function_of, nothing_of
from .reasons import DEFENCE, DELAYED, DELAYED_OUTCOME, STORE_TAINT

if TYPE_CHECKING:
    from wadrelwy.view.disassembly import Disassembler
    from wadrelwy.view.items import Item, Wait
    from wadrelwy.view.replay import Replay


def lines_of(replay: "Replay", disassembler: "Disassembler", first: int, last: Optional[int], summary: bool,
             function: Optional[str] = None) -> Iterator[str]:
    """The lines of `why`: each wait that touches the cycles from `first` to `last`, each stall of rename, and the sums; of the waits of one
    function alone where it is asked for, which is refused where nothing of it was fetched in the whole run."""
    waits: Counter = Counter()
    held: Counter = Counter()
    last = NEVER if last is None else last
    found = function is None
    for item in replay.items():
        if function is not None and function_of(disassembler.image, item.pc) != function:
            continue
        found = True
        for wait in item.waits:
            waits[wait.reason] += wait.last - wait.first + 1
            if wait.reason in DEFENCE:
                held[item.pc, held_by(wait), wait.pc] += wait.last - wait.first + 1
            if not summary and wait.first <= last and wait.last >= first:
                yield wait_line(item, wait, disassembler)
    if not found and replay.pipeline.cycle >= first:
        raise Fault(nothing_of(disassembler.image, str(function)))
    if not summary:
        for stall in replay.front.stalls:
            here = function is None or function_of(disassembler.image, stall.pc) == function
            if here and stall.first <= last and stall.last >= first:
                yield f"{cycles(stall):>13}  rename stops short of {disassembler.place(stall.pc)}: {stall.reason}"
    yield from sums(replay, waits, held, disassembler)


def cycles(span: Any) -> str:
    """`17` or `5..12`."""
    return f"{span.first}" if span.first == span.last else f"{span.first}..{span.last}"


def held_by(wait: "Wait") -> str:
    """What it is that holds it: a load that isn't visible, or a store whose address flows from one; under `delay` any entry that keeps it from
    being visible."""
    return "store" if wait.reason == STORE_TAINT else "entry" if wait.reason in (DELAYED, DELAYED_OUTCOME) else "load"


def wait_line(item: "Item", wait: "Wait", disassembler: "Disassembler") -> str:
    """The cycles, the instruction, the reason, and the entry that it waits for."""
    line = f"{cycles(wait):>13}  {item.serial} {disassembler.place(item.pc)}: {wait.reason}"
    if wait.serial < 0:
        return line
    return f"{line} of {wait.serial} {disassembler.place(wait.pc)}"


def sums(replay: "Replay", waits: "Counter", held: "Counter", disassembler: "Disassembler") -> Iterator[str]:
    unexplained = replay.reasons.unexplained
    yield listed("waits of instructions, in cycles", waits)
    yield listed("rename stops short, in cycles", replay.front.rename)
    yield listed("fetch stops short, in cycles", replay.front.fetch)
    for (pc, what, cause), number in held.most_common():
        yield f"{replay.reasons.holds}, in cycles: {number} at {disassembler.place(pc)}, by the {what} {disassembler.place(cause)}"
    yield f"unexplained: {len(unexplained)}"
    yield from ("  " + text for text in unexplained)


def listed(title: str, counts: Any) -> str:
    return f"{title}: " + (", ".join(f"{reason} {number}" for reason, number in Counter(counts).most_common()) or "none")
