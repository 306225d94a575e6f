"""The CPI stack: each of the `core.retire_width` slots of each cycle has one reason, so their sum is cycles times width.

A slot in which an instruction retires is `base`. What is lost of a cycle has the reason of the oldest entry that is left, since it keeps
all others: what it waits for, what executes it, or, where it has only just been renamed or there is none, why it came no earlier.
The last cycles of its execution are the defence's, as many as counted for it: cycles that lost a slot, in which it was the oldest entry that
waited with all that it reads and wasn't visible, and the defence kept it from issuing. Had it issued so much sooner, it would have been Done.
"""
from wadrelwy.riscv.kinds import CALL, DIVISION, MULTIPLICATION, STORE

from .description import DELAY, HOLD, STT
from .reasons import (
    ADDRESS_PORT, DATA_PORT, DELAYED_OUTCOME, DIVIDER, MISS_REGISTER, ONE_A_CYCLE, ONE_CLEARED, PORT, TAINTED_CLEARING, TAINTED_OUTCOME,
    TWO_REGISTERS)

BASE, FRONT_END, MISPREDICTION, VIOLATION, ROOM, SYSTEM_CALL, END, UNEXPLAINED = (
    "base", "front end", "misprediction", "load that passed a store wrongly", "room", "system call", "end of the run", "unexplained")
# why an item comes no earlier, where nothing else is known
NOT_LATE = FRONT_END, None
SIMPLE, MULTIPLIER, DIVIDER_BUSY, STORES, PORTS, REGISTERS, CLEARING = (
    "simple operation", "multiplier", "divider", "store executes", "ports", "miss registers", "clearing")
HIT, FORWARDED, SECOND_LEVEL, MEMORY, JOINED, FAULTING = (
    "load: hit", "load: forwarded", "load: second level", "load: memory", "load: joins a miss", "load: fault")
LOAD_REASONS = {"hit": HIT, "forward": FORWARDED, "second": SECOND_LEVEL, "miss": MEMORY, "join": JOINED, "fault": FAULTING}
KIND_REASONS = {MULTIPLICATION: MULTIPLIER, DIVISION: DIVIDER_BUSY, STORE: STORES}
# what each defence made late before it issued, and what it keeps that is Done
KEPT = {STT: "taint: before it issues", HOLD: "held back", DELAY: "delayed: before it issues"}
SETTLING = {TAINTED_OUTCOME: "taint: outcome of a branch", TAINTED_CLEARING: "taint: clearing of a store",
            DELAYED_OUTCOME: "delayed: outcome of a branch"}
WAIT_REASONS = {PORT: PORTS, ADDRESS_PORT: PORTS, DATA_PORT: PORTS, MISS_REGISTER: REGISTERS, TWO_REGISTERS: REGISTERS, DIVIDER: DIVIDER_BUSY,
                ONE_A_CYCLE: PORTS, ONE_CLEARED: CLEARING, **SETTLING}
# the order of the stack
STACK = (BASE, FRONT_END, MISPREDICTION, VIOLATION, SYSTEM_CALL, ROOM, SIMPLE, MULTIPLIER, DIVIDER_BUSY, STORES, HIT, FORWARDED, SECOND_LEVEL,
         MEMORY, JOINED, FAULTING, PORTS, REGISTERS, CLEARING, *KEPT.values(), *SETTLING.values(), END, UNEXPLAINED)
# how many entries are kept in mind that the defence kept, by the remainders of their serials
PLACES = 64


class Slots:
    """Counts slots by reason and by the address of the instruction that they are charged to, over the cycles that count.

    `kept` has the serial of the entry of each place that a cycle counted for last, negative where none did, and `times` how many cycles counted
    for it. `place` is that of the entry that the last cycle counted for, negative where it did for none. `left` are the slots that stay empty in
    this cycle, and `head` is the oldest entry, where it isn't Done and some do."""

    def __init__(self, pipeline):
        self.pipeline, self.width = pipeline, pipeline.description.retire_width
        self.lost, self.retired, self.cycles = {}, {}, 0
        self.fill, self.head, self.left, self.place = NOT_LATE, None, 0, -1
        self.kept, self.times = [-1] * PLACES, [0] * PLACES

    def count(self, reason, pc, slots):
        key = reason, pc
        self.lost[key] = self.lost.get(key, 0) + slots

    def sums(self):
        """The slots of each reason, in the stack's order."""
        found = dict.fromkeys(STACK, 0)
        found[BASE] = sum(self.retired.values())
        for (reason, _), number in self.lost.items():
            found[reason] += number
        return {reason: number for reason, number in found.items() if number}

    # ---- Squashes, Rename and Fetch

    def squash(self, item):
        """What is younger than a branch or JALR is dropped, or from a violated load on: the next item comes late for that."""
        self.fill = VIOLATION if item.violated else MISPREDICTION, item.pc

    def rename(self, item):
        item.fill, self.fill = self.fill, NOT_LATE

    def stall(self, reason, pc):
        """Rename stopped short of this item."""
        self.fill = (SYSTEM_CALL if "call" in reason else ROOM), pc

    # ---- What the defence alone keeps from issuing

    def note(self):
        """Issue is over: where slots stay empty, the cycle counts for the oldest entry that is asked, if the defence keeps it. What is renamed in
        this cycle isn't there yet."""
        item = self.oldest_asked() if self.left > 0 and self.pipeline.shadows else None
        self.place = -1
        if item is not None and self.pipeline.is_kept(item):
            self.place = item.serial % PLACES
            self.times[self.place] = self.times_kept(item) + 1
            self.kept[self.place] = item.serial

    def note_again(self):
        """The cycle counts for what the one before did: none of its slots is filled either."""
        if self.place >= 0:
            self.times[self.place] += 1

    def oldest_asked(self):
        """The oldest entry that waits with all that it reads, and isn't visible, or none."""
        for item in self.pipeline.awake:
            if self.pipeline.is_asked(item):
                return item
        return None

    def times_kept(self, item):
        """How many cycles counted for an entry, as far as that is kept in mind."""
        place = item.serial % PLACES
        return self.times[place] if self.kept[place] == item.serial else 0

    # ---- Retire, and what is lost in the cycle

    def retire(self, retired, ends):
        """What retired, and why no more did; of an oldest entry that isn't Done, `close` tells it when Issue is over."""
        self.head, self.left = None, self.width - len(retired)
        if not self.pipeline.counts:
            return
        self.cycles += 1
        for item in retired:
            self.retired[item.pc] = self.retired.get(item.pc, 0) + 1
        if self.left <= 0:
            return
        head = self.pipeline.window[0] if self.pipeline.window else None
        if ends:
            self.count(END, (head or retired[-1]).pc if head or retired else None, self.left)
        elif head is None:
            self.count(*self.empty(retired), self.left)
        elif head.done is None and not head.at_once:
            self.head = head
        else:
            self.count(self.reason_of(head, retired), head.pc, self.left)

    def empty(self, retired):
        """Why there is no entry: a call goes alone; else why the next item comes no earlier."""
        queue = self.pipeline.queue
        if queue and queue[0].kind == CALL:
            return SYSTEM_CALL, queue[0].pc
        if retired and retired[-1].kind == CALL:
            return SYSTEM_CALL, retired[-1].pc
        return self.fill

    def reason_of(self, head, retired):
        """Why the oldest entry, which is Done, doesn't retire."""
        if head.at_once:
            return SYSTEM_CALL if head.kind == CALL else UNEXPLAINED
        if head.is_control and head.resolved is None or head.is_store and not self.pipeline.is_cleared(head):
            reasons = [wait.reason for wait in head.waits if wait.last >= self.pipeline.cycle - 1]
            held = [wait.reason for wait in head.waits if wait.reason in SETTLING]
            return WAIT_REASONS.get(held[0] if held else reasons[-1] if reasons else None, UNEXPLAINED)
        if head.is_store and STORE in [item.kind for item in retired]:
            return PORTS
        return UNEXPLAINED

    def executes(self, head):
        """What an entry does that has begun to execute; or the defence, where it would be Done by now, had it begun as many cycles sooner as
        counted for it."""
        times = self.times_kept(head)
        if times and head.due is not None and head.due <= self.pipeline.cycle + times:
            return KEPT[self.pipeline.description.defence]
        return LOAD_REASONS.get(head.unit, HIT) if head.is_load else KIND_REASONS.get(head.kind, SIMPLE)

    def close(self):
        """Issue is over: what it made of the oldest entry, or what that did before."""
        head, cycle, self.head = self.head, self.pipeline.cycle, None
        last = head.waits[-1] if head.waits else None
        if head.issued == cycle and head.renamed == cycle - 1 and head.fill is not None:
            reason, pc = head.fill
            self.count(reason, head.pc if pc is None else pc, self.left)
        elif head.issued is None and last is not None and last.last == cycle:
            self.count(WAIT_REASONS.get(last.reason, UNEXPLAINED), head.pc, self.left)
        else:
            begun = head.issued is not None or head.address_at >= 0 or head.data_at >= 0
            self.count(self.executes(head) if begun else UNEXPLAINED, head.pc, self.left)


class Occupancy:
    """How many entries stand in each place when a cycle is over, and how many retire in it: sums, greatest numbers, and cycles."""

    PLACES = ("reorder buffer", "stations", "loads", "stores", "queue", "miss registers")

    def __init__(self, width):
        self.cycles, self.retired = 0, [0] * (width + 1)
        self.window, self.waiting, self.loads, self.stores, self.queue, self.misses = (Place() for _ in self.PLACES)

    def add(self, pipeline, retired):
        self.cycles += 1
        self.retired[min(retired, len(self.retired) - 1)] += 1
        self.window.add(len(pipeline.window))
        self.waiting.add(pipeline.waiting)
        self.loads.add(pipeline.loads)
        self.stores.add(pipeline.stores)
        self.queue.add(len(pipeline.queue))
        self.misses.add(len(pipeline.misses))

    @property
    def places(self):
        return self.window, self.waiting, self.loads, self.stores, self.queue, self.misses

    @property
    def sums(self):
        return [place.sum for place in self.places]

    @property
    def most(self):
        return [place.most for place in self.places]


class Place:
    """How many entries stood in a place, summed over cycles, and at most."""

    __slots__ = ("sum", "most")

    def __init__(self):
        self.sum = self.most = 0

    def add(self, number):
        self.sum += number
        if number > self.most:
            self.most = number
