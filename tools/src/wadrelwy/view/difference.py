"""`diff`: the first unequal cycle of two traces, and the events that only one of them has in it."""
from collections import Counter, deque
from itertools import zip_longest
from typing import Iterator, NamedTuple, Optional, Sequence, TYPE_CHECKING

if TYPE_CHECKING:
    from wadrelwy.view.disassembly import Disassembler
    from wadrelwy.view.pipeline import Pipeline

OF_AN_ENTRY = {"done", "res", "clr", "vio", "ret", "st", "call", "alu", "mul", "div", "agu", "std", "ld", "ren"}
OF_A_LINE = {"fill": 1, "ld": 2, "st": 2}


class Difference:
    """The first unequal row of two traces: its cycle, and the two rows, of which one is None where that trace has ended.

    `cycle` is None where the traces are equal. Where only the last lines differ it is the last cycle.
    """

    def __init__(self, traces: list, replays: list) -> None:
        self.traces, self.replays = traces, replays
        self.cycle, self.rows = None, [None, None]
        for rows in zip_longest(*traces):
            for replay, row in zip(replays, rows):
                if row:
                    deque(replay.gone(), maxlen=0)
                    replay.step(row)
            if None in rows or rows[0].events != rows[1].events:
                self.cycle, self.rows = next(row.cycle for row in rows if row), list(rows)
                return
        if texts(traces)[0] != texts(traces)[1]:
            self.cycle = replays[0].pipeline.cycle
            self.rows = [None, None]


def texts(traces: list) -> list:
    return [trace.end.text if trace.end else "(no last line)" for trace in traces]


class Mark(NamedTuple):
    """The first unequal cycle, the events that one of the two traces alone has there, and the entry that the first of them is about, of
    whichever trace, where there is one. Up to this cycle an entry's serial names one instruction in both."""

    cycle: int
    only: list
    serial: Optional[int] = None


def first_unequal(traces: list) -> Optional[list]:
    """The mark of each of two traces, from their texts alone; None where they are equal."""
    cycle = 0
    for rows in zip_longest(*traces):
        if None in rows or rows[0].events != rows[1].events:
            cycle = next(row.cycle for row in rows if row)
            alone = [only(rows, side) for side in (0, 1)]
            return [Mark(cycle, events, entry_of(alone[0] + alone[1])) for events in alone]
        cycle = rows[0].cycle
    return [Mark(cycle, [])] * 2 if texts(traces)[0] != texts(traces)[1] else None


def entry_of(events: list) -> Optional[int]:
    """The serial of the first event that is about an entry."""
    words = (event.split(":") for event in events)
    return next((int(each[1]) for each in words if each[0] in OF_AN_ENTRY), None)


def only(rows: Sequence, side: int) -> list:
    """The events of this side's row that the other's hasn't, in their order."""
    if rows[side] is None:
        return []
    left = Counter(rows[side].events) - Counter(rows[1 - side].events if rows[1 - side] else [])
    found = []
    for event in rows[side].events:
        if left[event]:
            left[event] -= 1
            found.append(event)
    return found


def lines_of(difference: "Difference", disassemblers: list) -> Iterator[str]:
    """The lines of `diff`."""
    if difference.cycle is None:
        yield f"equal: {difference.replays[0].pipeline.cycle} cycles"
        return
    yield f"first unequal cycle: {difference.cycle}"
    for side, name in enumerate("AB"):
        row, other = difference.rows[side], difference.rows[1 - side]
        if row is None:
            yield f"  {name}{' ends before' if other else ''}: {texts(difference.traces)[side]}"
            continue
        for event in only(difference.rows, side):
            yield f"  only {name}: {told(event, difference.replays[side].pipeline, disassemblers[side])}"


def told(event: str, pipeline: "Pipeline", disassembler: "Disassembler") -> str:
    """An event with the instruction and the symbol that it is about, and the symbol of its line."""
    words = event.split(":")
    place = ""
    if words[0] in OF_AN_ENTRY:
        place = place_of(int(words[1]), pipeline, disassembler)
    elif words[0] == "fet":
        place = disassembler.place(int(words[1], 16))
    elif words[0] == "bt":
        place = "to " + disassembler.place(int(words[2], 16))
    at = OF_A_LINE.get(words[0])
    symbol = disassembler.image.symbol(int(words[at], 16)) if at is not None and (at and len(words) > at + 1 or words[0] == "fill") else ""
    return f"{event:24}" + "  ".join(filter(None, [place, symbol and f"line of <{symbol}>"])).rstrip()


def place_of(serial: int, pipeline: "Pipeline", disassembler: "Disassembler") -> str:
    """The instruction of an entry, also of one that this very cycle retired or dropped."""
    item = next((item for item in pipeline.flight if item.serial == serial), None)
    return f"{serial} {disassembler.place(item.pc)}" if item else ""
