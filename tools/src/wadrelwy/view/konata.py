"""`konata`: the log that the viewer Konata opens, Kanata 0004.

Each instruction has one `I` and one `R`, and each `S` of a stage its `E`. The stages: F in the queue, Rn renamed; one for each
reason of waiting (Wo operand, Wt taint, Wh a load's result held back, Wv that it is visible, Ws older store, Wp port, Wm miss register, Wd divider; in version 2
Wo and Wp also of a part of a store, Ws of an older store's address or data, Wt of its tainted address); one for each unit (X, Mul,
Div, St, and Lh, Lm, Lj, L2, Lf, Lx for loads); Cm done; Ct done, and its outcome or its clearing held by the defence. `W` lines are the
dependences.
What is in flight at the end is told as flushed.
"""
from typing import Iterator, Optional, TYPE_CHECKING

from .listing import tip
from .reasons import (
    ADDRESS_PORT, BASE, DATA, DATA_PORT, DELAYED, DELAYED_OUTCOME, DIVIDER, HELD_BACK, MISS_REGISTER, OLDER_STORE, OPERAND, PORT, STORE_ADDRESS, STORE_DATA,
    STORE_TAINT, TAINT, TAINTED_CLEARING, TAINTED_OUTCOME, TWO_REGISTERS)
from .spans import DONE, QUEUE, RENAMED, RETIRED, spans_of

if TYPE_CHECKING:
    from wadrelwy.view.disassembly import Disassembler
    from wadrelwy.view.items import Item
    from wadrelwy.view.replay import Replay

STAGES = {
    QUEUE: "F", RENAMED: "Rn", OPERAND: "Wo", TAINT: "Wt", OLDER_STORE: "Ws", PORT: "Wp", MISS_REGISTER: "Wm", DIVIDER: "Wd",
    TWO_REGISTERS: "Wm", HELD_BACK: "Wh", DELAYED: "Wv",
    BASE: "Wo", DATA: "Wo", ADDRESS_PORT: "Wp", DATA_PORT: "Wp", STORE_ADDRESS: "Ws", STORE_DATA: "Ws", STORE_TAINT: "Wt",
    "alu": "X", "mul": "Mul", "div": "Div", "agu": "St",
    "hit": "Lh", "miss": "Lm", "join": "Lj", "second": "L2", "forward": "Lf", "fault": "Lx",
    DONE: "Cm", TAINTED_OUTCOME: "Ct", TAINTED_CLEARING: "Ct", DELAYED_OUTCOME: "Ct", RETIRED: "Cm",
}
IS_RETIRED, IS_FLUSHED = 0, 1


def stages(item: "Item", end: int) -> list:
    """The stages as (first, behind, name): the cycle of the retirement is one more of Cm."""
    found: list = []
    for first, behind, name in spans_of(item, end):
        if name in STAGES and found and found[-1][2] == STAGES[name]:
            found[-1] = (found[-1][0], behind, STAGES[name])
        elif name in STAGES:
            found.append((first, behind, STAGES[name]))
    return found


def lines_of(replay: "Replay", disassembler: "Disassembler", first: int, last: Optional[int]) -> Iterator[str]:
    """The lines of the log, for the instructions that are there in the cycles from `first` to `last`."""
    yield "Kanata\t0004"
    log = Log()
    for item in replay.items(last):
        if item.gone is not None and item.gone < first:
            continue
        yield from log.up_to(item.fetched)
        log.add(item, replay.pipeline.cycle + 1, disassembler)
    yield from log.up_to(None)


class Log:
    """Lines by their cycles, until no more can come for these: items come in the order of fetching."""

    def __init__(self) -> None:
        self.lines: dict = {}
        self.cycle: Optional[int] = None
        self.retired = 0
        self.numbers: dict = {}

    def put(self, cycle: int, *words: object) -> None:
        self.lines.setdefault(cycle, []).append("\t".join(map(str, words)))

    def up_to(self, cycle: Optional[int]) -> Iterator[str]:
        """The lines of the cycles below this one; all of them for None."""
        for when in sorted(when for when in self.lines if cycle is None or when < cycle):
            if when != self.cycle:
                yield f"C=\t{when}" if self.cycle is None else f"C\t{when - self.cycle}"
                self.cycle = when
            yield from self.lines.pop(when)

    def add(self, item: "Item", behind: int, disassembler: "Disassembler") -> None:
        """All lines of one instruction; one that is still in flight ends in the cycle `behind` the last."""
        number = self.numbers[item.number] = len(self.numbers)
        self.put(item.fetched, "I", number, item.number if item.serial < 0 else item.serial, 0)
        self.put(item.fetched, "L", number, 0, disassembler.place(item.pc))
        self.put(item.fetched, "L", number, 1, tip(item, disassembler).replace("\n", "\\n"))
        for first, end, name in stages(item, behind):
            self.put(first, "S", number, 0, name)
            self.put(end, "E", number, 0, name)
        self.add_dependences(item, number)
        self.put(end, "R", number, self.retired, IS_RETIRED if item.retired is not None else IS_FLUSHED)
        self.retired += item.retired is not None

    def add_dependences(self, item: "Item", number: int) -> None:
        if item.issued is not None:
            for producer in dict.fromkeys(item.producers):
                if producer in self.numbers:
                    self.put(item.issued, "W", number, self.numbers[producer], 0)
