"""What an instruction does in each cycle from its fetch until it is gone: the stages of pictures and of Konata's log."""
from typing import Iterator, TYPE_CHECKING

from .reasons import (
    ADDRESS_PORT, BASE, DATA, DATA_PORT, DELAYED, DELAYED_OUTCOME, DIVIDER, HELD_BACK, MISS_REGISTER, OLDER_STORE, OPERAND, PORT, STORE_ADDRESS, STORE_DATA,
    STORE_TAINT, TAINT, TAINTED_CLEARING, TAINTED_OUTCOME, TWO_REGISTERS)

if TYPE_CHECKING:
    from wadrelwy.view.items import Item

QUEUE, RENAMED, DONE, RETIRED, SQUASHED, TRAPPED = "queue", "renamed", "done", "retired", "squashed", "trapped"
WAITS = (OPERAND, TAINT, HELD_BACK, DELAYED, OLDER_STORE, PORT, MISS_REGISTER, TWO_REGISTERS, DIVIDER, BASE, DATA, ADDRESS_PORT, DATA_PORT,
         STORE_ADDRESS, STORE_DATA, STORE_TAINT)
# what a Done entry may wait for, by the defence
OUTCOMES = (TAINTED_OUTCOME, TAINTED_CLEARING, DELAYED_OUTCOME)
UNITS = ("alu", "mul", "div", "agu", "hit", "miss", "join", "second", "forward", "fault")


def spans_of(item: "Item", end: int) -> list:
    """Spans of cycles as (first, behind, name), one behind the other; `end` is the cycle behind the last of the run.

    The names are those of this module, the reasons of waiting, and the units. The last span is the one cycle in which it
    retires, is squashed or traps; an instruction that is in flight at the end has none.
    """
    last = item.trapped if item.gone is None else item.gone
    behind = end if last is None else last
    turns = sorted(turns_of(item), key=lambda turn: turn[0]) + [(behind, None)]
    spans = []
    for (first, name), (after, _) in zip(turns, turns[1:]):
        if first < min(after, behind):
            spans.append((first, min(after, behind), name))
    if last is not None:
        spans.append((last, last + 1, TRAPPED if item.gone is None else SQUASHED if item.retired is None else RETIRED))
    return spans


def turns_of(item: "Item") -> Iterator:
    """The cycles in which it begins to do something else, and what. Of two of one cycle the later one counts."""
    yield item.fetched, QUEUE
    if item.renamed is not None:
        yield item.renamed, RENAMED
        if item.code.at_once:
            yield item.renamed + 1, DONE
    yield from ((wait.first, wait.reason) for wait in item.waits if wait.reason in WAITS)
    if item.issued is not None:
        yield item.issued, item.unit
    if item.done is not None:
        yield item.done, DONE
    for wait in item.waits:
        if wait.reason in OUTCOMES:
            yield wait.first, wait.reason
            yield wait.last + 1, DONE
