"""Why rename or fetch stops short of the width (docs/machine.md, "Rename" and "Fetch")."""
from wadrelwy.riscv.kinds import BRANCH, CALL, JAL, JALR, STOP
from wadrelwy.riscv.operation import WORD, decode

REORDER_BUFFER, CALL_IN_FLIGHT, LOADS, STORES, CALL_ALONE, STATIONS = (
    "reorder buffer", "call in flight", "loads", "stores", "call waits to be alone", "stations")
QUEUE_EMPTY, QUEUE_FULL, NOTHING_TO_FETCH = "queue empty", "queue full", "nothing to fetch"


class Stall:
    """Cycles in a row in which rename stopped short for one reason, and the address of the item that stayed first."""

    __slots__ = ("first", "last", "reason", "pc")

    def __init__(self, cycle, reason, pc):
        self.first = self.last = cycle
        self.reason, self.pc = reason, pc


class FrontEnd:
    """Looks at each renaming before it is applied, and at the queue behind the two phases; `tell` gets what no rule explains.

    `rename` and `fetch` count the cycles in which they stopped short, by reason; `stalls` are those of rename by their cycles; they may be
    none. `ways` are the addresses of which one is fetched next, as far as the image tells them: none where any may be.
    """

    def __init__(self, pipeline, tell):
        self.pipeline, self.tell, description = pipeline, tell, pipeline.description
        self.width, self.rob, self.stations = description.fetch_width, description.rob, description.stations
        self.loads, self.stores, self.room = description.loads, description.stores, description.queue
        self.rename, self.fetch, self.stalls = {}, {}, []
        self.fetching, self.last_rename, self.last_fetch = True, None, None
        self.ways, self.known_ways = (), {}

    def count(self, counter, reason):
        if self.pipeline.counts:
            counter[reason] = counter.get(reason, 0) + 1

    def repeat(self, cycle):
        """A cycle in which nothing happens, as in the one before: both stop short as they did."""
        self.count(self.rename, self.last_rename)
        self.count(self.fetch, self.last_fetch)
        stall = self.stalls[-1] if self.stalls else None
        if stall is not None and stall.last == cycle - 1:
            stall.last = cycle

    def to_rename(self, item):
        """The reason why the front of the queue can't go, None where it can."""
        pipeline = self.pipeline
        if len(pipeline.window) >= self.rob:
            return REORDER_BUFFER
        if pipeline.window:
            first = pipeline.window[0]
            if first.kind == CALL:
                return CALL_IN_FLIGHT
        if item.is_load and pipeline.loads >= self.loads:
            return LOADS
        if item.is_store and pipeline.stores >= self.stores:
            return STORES
        if item.kind == CALL and pipeline.window:
            return CALL_ALONE
        if pipeline.waiting >= self.stations and not item.at_once:
            return STATIONS
        return None

    def has_room(self):
        """Whether all that may be renamed in a cycle finds room, whatever it is but a call: then no item is asked for."""
        pipeline, width = self.pipeline, self.width
        first = pipeline.window[0] if pipeline.window else None
        return (len(pipeline.window) + width <= self.rob and pipeline.waiting + width <= self.stations
                and pipeline.loads + width <= self.loads and pipeline.stores + width <= self.stores
                and (first is None or first.kind != CALL))

    def call_is_next(self):
        """Whether the front of the queue is a call."""
        first = self.pipeline.queue[0] if self.pipeline.queue else None
        return first is not None and first.kind == CALL

    def before_rename(self, serial):
        reason = self.to_rename(self.pipeline.queue[0]) if self.pipeline.queue else None
        if reason:
            self.tell(f"entry {serial} is renamed, but has to wait: {reason}")

    def after_rename(self, count):
        """Fewer than the width were renamed: nothing was left, or the front of the queue couldn't go. Answers why it couldn't."""
        if count >= self.width:
            if count > self.width:
                self.tell(f"{count} items are renamed")
            return None
        if not self.pipeline.queue:
            self.last_rename = QUEUE_EMPTY
            self.count(self.rename, QUEUE_EMPTY)
            return None
        front = self.pipeline.queue[0]
        reason = self.to_rename(front)
        if reason is None:
            self.tell(f"the item of {front.pc:08x} isn't renamed, and nothing tells why")
            return None
        self.last_rename = reason
        self.count(self.rename, reason)
        self.keep_stall(reason, front.pc)
        return reason

    def keep_stall(self, reason, pc):
        if self.stalls is None:
            return
        last, cycle = self.stalls[-1] if self.stalls else None, self.pipeline.cycle
        if last is not None and last.last == cycle - 1 and last.reason == reason and last.pc == pc:
            last.last = cycle
        else:
            self.stalls.append(Stall(cycle, reason, pc))

    # ---- Fetch

    def after_violation(self, fetched, violated):
        """Behind a load that is violated fetch goes on at it."""
        if violated is not None and [item.pc for item in fetched[:1]] != [violated.pc]:
            self.tell(f"load {violated.serial} is violated, and fetch doesn't go on at {violated.pc:08x}")

    def after_fetch(self, fetched, squashed):
        """Fewer than the width were fetched: the queue is full, or a stop or a jump that faults left nothing to fetch.

        A jump that faults drops what is younger, and nothing is fetched from then on: the trace tells it by that alone.
        """
        queue, width = self.pipeline.queue, self.width
        if squashed:
            self.ways = self.ways_behind(self.pipeline.last_squash)
        for item in fetched:
            if self.ways and item.pc not in self.ways:
                self.tell(f"{item.pc:08x} is fetched, where {either(self.ways)} is the next")
            self.ways = self.ways_of(item.pc)
        self.fetching = self.fetching or squashed
        number, last = len(fetched), fetched[-1] if fetched else None
        if number > width or number and (not self.fetching or len(queue) > self.room):
            self.tell("more is fetched than may be")
        if squashed if last is None else last.kind == STOP:
            self.fetching = False
        if number < width:
            full = len(queue) >= self.room
            if full or not self.fetching:
                self.last_fetch = QUEUE_FULL if full else NOTHING_TO_FETCH
                self.count(self.fetch, self.last_fetch)
            else:
                self.tell("fetch stops short, and nothing tells why")

    def ways_of(self, pc):
        """Where fetch may go on behind the item of this address. Behind a branch the address behind it comes first, and then its target."""
        ways = self.known_ways.get(pc)
        if ways is None:
            operation = decode(self.pipeline.image.words.get(pc))
            kind, behind, target = operation.code.kind, pc + 4 & WORD, pc + operation.imm & WORD
            ways = () if kind in (JALR, STOP) else (behind, target) if kind == BRANCH else (target,) if kind == JAL else (behind,)
            self.known_ways[pc] = ways
        return ways

    def ways_behind(self, item):
        """Where fetch goes on behind an entry that squashed: behind a branch where it goes. `after_violation` looks at a load."""
        if item.kind != BRANCH:
            return ()
        behind, target = self.ways_of(item.pc)
        return (target,) if item.outcome == "T" else (behind,)


def either(ways):
    """Addresses of which one is right."""
    return " or ".join([f"{pc:08x}" for pc in ways])
