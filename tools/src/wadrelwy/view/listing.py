"""`list`: one line an instruction with all its times."""
from typing import Any, Iterator, Optional, TYPE_CHECKING

from . import Fault
from .items import NEVER
from .pipeline import LOAD_UNITS
from .places import function_of, nothing_of
from .reasons import DELAYED, DELAYED_OUTCOME, HELD, HELD_BACK
from .why import cycles, held_by

if TYPE_CHECKING:
    from wadrelwy.view.disassembly import Disassembler
    from wadrelwy.view.items import Item, Wait
    from wadrelwy.view.replay import Replay

TIMES = ("fetched", "renamed", "ready", "issued", "done", "resolved", "retired")
IN_FLIGHT = "in flight at the end"
PART_NAMES = {"agu": "address", "std": "data"}
HEADER = f"{'serial':>8}" + "".join(f"{name:>9}" for name in TIMES) + "  instruction"


def lines_of(replay: "Replay", disassembler: "Disassembler", first: int, last: Optional[int], function: Optional[str] = None) -> Iterator[str]:
    """A header, and each instruction that is there in the cycles from `first` to `last`, of one function where it is asked for; it is refused
    where there is none of it."""
    yield HEADER
    spanned, found = first > 1 or last is not None, False
    last = NEVER if last is None else last
    for item in replay.items():
        here = function is None or function_of(disassembler.image, item.pc) == function
        if here and item.fetched <= last and (item.gone is None or item.gone >= first):
            found = True
            yield line_of(item, disassembler)
    if function is not None and not found and replay.pipeline.cycle >= first:
        raise Fault(nothing_of(disassembler.image, function, spanned))


def line_of(item: "Item", disassembler: "Disassembler") -> str:
    times = "".join(f"{shown(getattr(item, name)):>9}" for name in TIMES)
    return f"{item.serial if item.serial >= 0 else '-':>8}{times}  " + "; ".join([disassembler.place(item.pc), *notes(item)])


def shown(number: Optional[int]) -> Any:
    return "-" if number is None else number


def notes(item: "Item", still: str = IN_FLIGHT) -> Iterator[str]:
    """What the times don't tell: the access, the outcome, taint, and how it went; `still` is told of what isn't gone."""
    if item.unit and item.code.kind == "load":
        yield ", ".join(f"{LOAD_UNITS[found]} {line:08x}" for line, found in item.lines) or item.unit
    if len(set(item.parts.values())) > 1 or item.parts and item.issued is None:
        yield ", ".join(f"{PART_NAMES[part]} {cycle}" for part, cycle in sorted(item.parts.items(), key=lambda part: part[1]))
    if item.passed:
        yield "passes stores of unknown address"
    if item.cleared is not None:
        yield f"cleared {item.cleared}"
    for line, found in item.written:
        yield f"writes {line:08x}, {LOAD_UNITS[found]}"
    if item.output is not None:
        yield f"puts out {item.output} bytes"
    if item.outcome:
        yield {"T": "taken", "N": "not taken", "J": "jump"}[item.outcome] + (", mispredicted" if item.mispredicted else "")
    yield from (f"held by taint {cycles(wait)} of {held_by(wait)} {wait.serial}" for wait in item.waits if wait.reason in HELD)
    yield from (f"held back {cycles(wait)} of load {wait.serial}" for wait in item.waits if wait.reason == HELD_BACK)
    yield from (f"delayed {cycles(wait)} by {wait.serial}" for wait in item.waits if wait.reason in (DELAYED, DELAYED_OUTCOME))
    if item.squashed is not None:
        yield f"squashed {item.squashed}" + ", violated" * item.violated
    elif item.trapped is not None:
        yield f"traps {item.trapped}"
    elif item.retired is None:
        yield still


def tip(item: "Item", disassembler: "Disassembler", still: str = IN_FLIGHT) -> str:
    """The same as a text of a few lines, for a picture."""
    times = [f"{name} {getattr(item, name)}" for name in TIMES if getattr(item, name) is not None]
    serial = "" if item.serial < 0 else f"{item.serial} "
    waits = [f"{cycles(wait)} waits: {wait.reason}{of(wait)}" for wait in item.waits]
    return "\n".join([serial + disassembler.place(item.pc), ", ".join(times), *notes(item, still), *waits])


def of(wait: "Wait") -> str:
    return "" if wait.serial < 0 else f" of {wait.serial}"
