"""`o3`: the text of gem5's O3PipeView, which util/o3-pipeview.py and Konata read.

Seven lines an instruction, and a cycle is 1000 ticks. A tick of 0 says that it didn't come to that: so retire is 0 where an
instruction was squashed. This core has no stages of their own for decoding and dispatch: both have the tick of the renaming.
"""
from typing import Any, Iterator, Optional, TYPE_CHECKING

if TYPE_CHECKING:
    from wadrelwy.view.disassembly import Disassembler
    from wadrelwy.view.replay import Replay


TICKS = 1000


def lines_of(replay: "Replay", disassembler: "Disassembler", first: int, last: Any) -> Iterator[str]:
    """The lines for the instructions that are there in the cycles from `first` to `last`."""
    for item in replay.items(last):
        if item.gone is None or item.gone >= first:
            text = disassembler.place(item.pc).replace(":", " ")
            yield f"O3PipeView:fetch:{tick(item.fetched)}:0x{item.pc:08x}:0:{item.number + 1}:{text}"
            yield from (f"O3PipeView:{stage}:{tick(item.renamed)}" for stage in ("decode", "rename", "dispatch"))
            done = item.renamed if item.code.at_once else item.done
            issued = item.renamed if item.code.at_once else item.issued
            yield f"O3PipeView:issue:{tick(issued)}"
            yield f"O3PipeView:complete:{tick(done)}"
            yield f"O3PipeView:retire:{tick(item.retired)}:store:{tick(item.retired if item.written else None)}"


def tick(cycle: Optional[int]) -> int:
    return 0 if cycle is None else cycle * TICKS
