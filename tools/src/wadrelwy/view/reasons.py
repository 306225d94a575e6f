"""Why an instruction waits to issue, to be resolved or to be cleared, and why nothing retires.

Each reason is a rule of docs/machine.md that forbids the step in that cycle, tested on the state that the phase finds. A
wait that no rule asks for, and a step that a rule forbids, are told as unexplained. So this is also a check of the trace,
made from its text, the image and the description alone.
"""
from wadrelwy.riscv.kinds import CALL

from .description import DEFENCES, DELAY, FUTURISTIC, HOLD
from .items import ADDRESS_PART, ARITHMETIC_PORTS, DATA_PART, PARTS, PORTS
from .pipeline import enter

# to issue
OPERAND, TAINT, OLDER_STORE, PORT, MISS_REGISTER, DIVIDER = (
    "operand", "taint", "older store", "port", "miss register", "divider")
# to issue where accesses may have any address: a load of two lines
TWO_REGISTERS = "two miss registers"
# to issue in version 2: a part of a store; a load
BASE, DATA, ADDRESS_PORT, DATA_PORT = "base", "data", "address port", "data port"
STORE_ADDRESS, STORE_DATA, STORE_TAINT = "older store's address", "older store's data", "older store's tainted address"
# to issue under the defence `hold`
HELD_BACK = "load held back"
# to issue under the defence `delay`, and to be resolved
DELAYED, DELAYED_OUTCOME = "not visible", "not visible, to be resolved"
# to be resolved; a store that loads may have passed: to be cleared
TAINTED_OUTCOME, ONE_A_CYCLE = "taint, to be resolved", "one resolved a cycle"
TAINTED_CLEARING, ONE_CLEARED = "taint, to be cleared", "one cleared a cycle"
HELD = (TAINT, STORE_TAINT, TAINTED_OUTCOME, TAINTED_CLEARING)
DEFENCE = frozenset((*HELD, HELD_BACK, DELAYED, DELAYED_OUTCOME))

# what each part of a store waits for: its operand, and its port
PART_REASONS = dict(zip(PARTS, ((BASE, ADDRESS_PORT), (DATA, DATA_PORT))))


class Reasons:
    """Looks at each phase of a cycle before its events are applied to the pipeline, and keeps what it finds.

    `unexplained` are lines for people; `idle` counts, by reason and address, the cycles in which nothing retired. `ports` has how many
    of each port are left in this cycle. What a method finds an entry to wait for beside the reason that it answers is its `cause`.
    """

    def __init__(self, pipeline):
        self.pipeline, self.description = pipeline, pipeline.description
        self.unexplained, self.idle, self.last_idle = [], {}, None
        self.presumed, self.head, self.issued, self.cause = set(), None, [], None
        self.futuristic, self.results_held = self.description.model == FUTURISTIC, self.description.defence == HOLD
        self.delays = self.description.defence == DELAY
        self.version, self.width = self.description.version, self.description.retire_width
        self.mshrs, self.misaligned = self.description.mshrs, self.description.misaligned
        self.free_ports = bytearray([1] * (len(PORTS) + 1))
        self.free_ports[ARITHMETIC_PORTS] = self.description.alus
        self.ports = bytearray(self.free_ports)

    @property
    def holds(self):
        """What the description's defence does, in words."""
        return DEFENCES[self.description.defence]

    def tell(self, text):
        self.unexplained.append(f"cycle {self.pipeline.cycle}: {text}")

    def wait(self, item, reason, cause):
        """The item waits in this cycle."""
        item.wait(self.pipeline.cycle, reason, cause)

    # ---- Resolve

    def resolve(self, resolved, squashes):
        """The oldest branch or JALR that is Done, with no tainted operand, is resolved: at most one a cycle. Under `delay` it has to be visible."""
        first = None
        for item in self.pipeline.outcomes[:]:
            if squashes and item.serial > resolved:
                continue
            root = self.hider(item) if self.delays else self.tainted_root(item)
            if root is None and first is None and item.serial != resolved and self.presume_fault(item if self.delays else item.youngest_root):
                root = self.hider(item) if self.delays else item.youngest_root
            if root is not None:
                self.wait(item, DELAYED_OUTCOME if self.delays else TAINTED_OUTCOME, root)
            elif first is None:
                first = item.serial
            else:
                item.wait(self.pipeline.cycle, ONE_A_CYCLE, None)
        if first != resolved:
            self.tell(f"{named(resolved)} is resolved, where {named(first)} may be")

    def tainted_root(self, item):
        """The youngest load from which an operand flows, if it isn't visible."""
        root = item.youngest_root
        return root if self.pipeline.is_hidden(root) else None

    # ---- under `delay`

    def hider(self, item):
        """The oldest entry that keeps this one from being visible, or none."""
        return self.pipeline.shadows[0] if self.pipeline.is_hidden(item) else None

    def is_delayed(self, item):
        """Whether it waits to be visible, and for no writer: a load, a division, or a store that lacks its address."""
        if not self.delays or not self.pipeline.is_hidden(item):
            return False
        if item.is_store:
            return item.address_at < 0 and (item.one is None or item.one.done is not None)
        return (item.is_load or item.divides) and item.waiting and not item.awaits

    # ---- Clear

    def clear(self, cleared):
        """The oldest store that isn't cleared, with a known address that isn't tainted, is cleared: at most one a cycle."""
        first = None
        for store in self.pipeline.clearable[:]:
            root = store.root_one
            hidden = self.pipeline.is_hidden(root)
            if not hidden and first is None and store.serial != cleared:
                hidden = self.presume_fault(root)
            if not hidden and first is None:
                first = store.serial
            elif store.issued is not None:
                self.wait(store, *((TAINTED_CLEARING, root) if hidden else (ONE_CLEARED, None)))
        if first != cleared:
            self.tell(f"{named(cleared)} is cleared, where {named(first)} may be")

    # ---- Issue

    def issue(self, issued):
        """Each entry that may issue does, oldest first, as long as its port is left. `issued` are those that do."""
        pipeline, cycle = self.pipeline, self.pipeline.cycle
        if not pipeline.awake:
            return
        self.issued = issued
        self.ports[:] = self.free_ports
        awake, kept = pipeline.awake, 0
        for item in awake:
            if item.is_store and self.version != 1:
                stays = self.issue_parts(item)
            else:
                stays = self.issue_whole(item, item.goes, cycle)
            if stays:
                awake[kept] = item
                kept += 1
        del awake[kept:]
        self.issued = []

    def renamed(self, item):
        """What waits for writers alone from its first cycle on isn't looked at before one of them is Done."""
        if not item.awaits or item.at_once:
            return
        if not item.is_store or self.version == 1:
            reason, cause = OPERAND, awaited(item)
        elif item.awaits == 2:
            reason, cause = BASE, item.one
        else:
            return
        item.wait(self.pipeline.cycle + 1, reason, cause)
        item.sleep()
        self.pipeline.awake.pop()

    def rouse(self, item):
        """An entry issues that was known to wait: it is looked at as any other."""
        item.wake(self.pipeline.cycle)
        enter(self.pipeline.awake, item)

    def issue_whole(self, item, goes, cycle):
        """What issues in one piece. Answers whether it has to be looked at in the next cycle too."""
        if item.awaits and not goes:
            item.wait(cycle, OPERAND, awaited(item))
            item.sleep()
            return False
        reason = self.to_issue(item, goes)
        if reason is None and not goes and self.futuristic and any(map(self.presume_fault, self.roots_of_wait(item))):
            reason = self.to_issue(item, goes)
        self.keep(item, goes, reason, self.cause)
        return not goes

    def roots_of_wait(self, item):
        """The loads that have to be visible for this entry to issue: a load also asks for those of the addresses of stores without data."""
        if self.delays and (item.is_load or item.divides):
            yield item
        if self.description.defence == HOLD or item.is_load or item.divides:
            yield item.youngest_root
        if item.is_load and self.description.version != 1:
            yield from [store.root_one for store in self.older_open_stores(item) if store.data_at < 0]

    def is_held_back(self, writer):
        """Whether this writer is a load whose result isn't used until it is visible."""
        return self.results_held and self.pipeline.is_held(writer)

    def held_back(self, item):
        """The first writer of its sources whose result isn't used until it is visible, or none."""
        for writer in (item.one, item.two):
            if self.is_held_back(writer):
                return writer
        return None

    def issue_parts(self, item):
        """Each part of a store goes as soon as its own source is there and its port is left. Told is what the first of them waits for.
        Answers whether the store has to be looked at in the next cycle too."""
        address = data = None
        if item.address_at < 0:
            address = self.to_issue_part(item, ADDRESS_PART, item.one, item.address_goes)
        if item.data_at < 0:
            data = self.to_issue_part(item, DATA_PART, item.two, item.data_goes)
        if address is not None:
            self.wait(item, address, None if address == ADDRESS_PORT else self.hider(item) if address == DELAYED else item.one)
        elif data is not None:
            self.wait(item, data, None if data == DATA_PORT else item.two)
        lacks_address = item.address_at < 0 and not item.address_goes
        lacks_data = item.data_at < 0 and not item.data_goes
        if not lacks_address and not lacks_data:
            return False
        if lacks_address and address != BASE or lacks_data and data != DATA or (address or data) not in (BASE, DATA):
            return True
        item.sleep()
        return False

    def to_issue_part(self, item, part, writer, goes):
        """The reason why a part of a store can't issue, which is told where it does; None where it can. It takes its port then."""
        place, reason = PORTS[part], None
        if writer is not None and writer.done is None:
            reason = PART_REASONS[part][0]
        elif self.results_held and (self.is_held_back(writer) or self.may_be_held_back(writer, goes or not self.ports[place])):
            reason = HELD_BACK
        elif self.delays and part == ADDRESS_PART and self.may_be_delayed(item, goes or not self.ports[place]):
            reason = DELAYED
        elif not self.ports[place]:
            reason = PART_REASONS[part][1]
        elif goes:
            self.ports[place] -= 1
        else:
            self.tell(f"store {item.serial} lacks its `{part}`, and nothing tells why")
        if reason is not None and goes:
            self.tell(f"store {item.serial} issues `{part}`, but has to wait: {reason}")
        return reason

    def may_be_held_back(self, writer, goes):
        """Whether a fault that the trace doesn't tell holds this load back, where nothing else explains a wait for it."""
        read = self.results_held and writer is not None and writer.is_load
        return read and not goes and self.presume_fault(writer)

    def may_be_delayed(self, store, goes):
        """Whether this store isn't visible, also by a fault that the trace doesn't tell, where nothing else explains a wait for that."""
        return self.pipeline.is_hidden(store) or not goes and self.presume_fault(store)

    def keep(self, item, goes, reason, cause):
        """Takes the port of an entry that is tried, and keeps the reason of one that waits."""
        if reason is None or reason == MISS_REGISTER or reason == TWO_REGISTERS:
            self.ports[item.port] -= 1
        if goes and reason is not None:
            self.tell(f"entry {item.serial} issues, but has to wait: {reason}")
        elif reason is not None:
            self.wait(item, reason, cause)
        elif not goes:
            self.tell(f"entry {item.serial} waits, and nothing tells why")

    def to_issue(self, item, goes):
        """The reason why this entry can't issue; None where it can."""
        self.cause = None
        if item.awaits:
            self.cause = awaited(item)
            return OPERAND
        if self.results_held:
            self.cause = self.held_back(item)
            if self.cause is not None:
                return HELD_BACK
        if self.delays and (item.is_load or item.divides):
            self.cause = self.hider(item)
            if self.cause is not None:
                return DELAYED
        if item.is_load or item.divides:
            self.cause = item.youngest_root
            if self.cause is not None and self.pipeline.is_hidden(self.cause):
                return TAINT
            self.cause = None
        reason = self.behind_stores(item) if item.is_load and self.pipeline.open_stores else None
        if reason is not None:
            return reason
        if item.divides and self.pipeline.cycle < self.pipeline.divider.free_from:
            self.cause = self.pipeline.divider.user
            return DIVIDER
        if not self.ports[item.port]:
            return PORT
        return self.tried(item, goes) if item.is_load else None

    # ---- loads behind stores

    def behind_stores(self, load, taint=True):
        """What in the older stores keeps a load from issuing, as far as the trace tells it: `cause` is then which store.

        In version 1 a store that isn't Done. In version 2 one whose address isn't known, unless the load passes it; or whose data isn't,
        where its address is tainted, or it covers a byte of the load. Without `taint`: what would keep it if nothing were tainted.
        """
        self.cause, found, waits = None, None, not self.pipeline.may_pass(load)
        for store in self.pipeline.open_stores:
            if store.serial >= load.serial:
                break
            if self.version == 1 or waits and store.address_at < 0:
                self.cause = store
                return OLDER_STORE if self.version == 1 else STORE_ADDRESS
            if found == STORE_TAINT or store.data_at >= 0:
                continue
            if taint and self.pipeline.is_hidden(store.root_one):
                found, self.cause = STORE_TAINT, store
            elif found is None and self.shares(load, store):
                found, self.cause = STORE_DATA, store
        return found

    def shares(self, load, store):
        """Whether a store covers a byte of a load: one of unknown address covers nothing. None where that isn't known."""
        return not self.pipeline.lacks_address(store) and self.pipeline.shares(load, store)

    def older_open_stores(self, load):
        """The older stores that aren't Done; in version 2, when Issue begins, these lack a part."""
        return [store for store in self.pipeline.open_stores if store.serial < load.serial]

    def tried(self, load, goes):
        """Why a load doesn't issue that no other rule keeps: it finds too few miss registers. Or, in version 2, an older store without
        data covers a byte of it, which a trace tells by that alone: that is certain where its lines find registers, or a younger load
        goes.
        """
        stores = [] if self.version == 1 else self.may_share(load)
        lacks = self.lacks(load)
        if goes:
            self.check_sharers(load, stores)
        elif stores and (not lacks or a_younger_load_goes(load, self.issued)):
            load.sharers, self.cause = stores, stores[-1]
            return STORE_DATA
        elif lacks:
            if not stores:
                load.lacking_at, load.lacking = self.pipeline.cycle, lacks
            return MISS_REGISTER if lacks == 1 else TWO_REGISTERS
        return None

    def lacks(self, load):
        """How many registers a load needs, as far as the trace tells it, where there are fewer; 0 where it can have enough.

        Without any it needs one, and may need two; with one left a load needs two, and only where accesses may have any address.
        """
        left = self.mshrs - len(self.pipeline.misses)
        return 1 if left <= 0 else 2 if left == 1 and self.misaligned and self.pipeline.may_take_two(load) else 0

    def may_share(self, load):
        """The older stores without data of which it isn't known whether they cover a byte of the load."""
        found = []
        for store in self.pipeline.open_stores:
            if store.serial >= load.serial:
                break
            if store.data_at < 0 and self.shares(load, store) is None:
                found.append(store)
        return found

    def check_sharers(self, load, stores):
        """A load that waited for data doesn't go before one of the stores has it that can have kept it."""
        if load.sharers and all([store in stores for store in load.sharers]):
            self.tell(f"load {load.serial} issues, and no store has got the data that it waited for")

    # ---- stores that fault

    def presume_fault(self, root):
        """Under futuristic a store that faults hides all behind it, and the trace doesn't tell that it faults.

        Where that alone can explain a wait, the youngest Done store older than the root is taken to fault: if it is an older one, that
        never lets it retire. It then must not retire: `retire` tells if it does.
        """
        if self.description.model != FUTURISTIC or root is None:
            return False
        for store in reversed(self.pipeline.window):
            if (store.serial < root.serial and store.is_store and store.done is not None
                    and store not in self.pipeline.shadows):
                self.presumed.add(store.serial)
                self.pipeline.shadows.append(store)
                self.pipeline.shadows.sort(key=lambda item: item.serial)
                return True
        return False

    # ---- Retire

    def retire(self, retired, ends):
        """Up to the width the oldest entries retire that are Done and resolved, and one store at most, which has to be cleared."""
        self.head = None
        number = 0
        for event in retired:
            number += event.name == "ret"
            if event.name == "ret" and event.number in self.presumed:
                self.tell(f"store {event.number} retires; a wait was explained by its fault")
        expected = self.to_retire()
        if number > expected or number < expected and not ends:
            self.tell(f"{number} entries retire, {expected} may")
        if not number and self.pipeline.counts:
            self.explain_idle(ends)

    def to_retire(self):
        """How many turns find an entry that may retire, as far as no fault stands in the way."""
        turns = stores = 0
        for item in self.pipeline.window:
            if turns == self.width or item.done is None and item.kind != CALL:
                break
            if item.is_control and item.resolved is None:
                break
            if item.is_store:
                stores += 1
                if stores > 1 or not self.pipeline.is_cleared(item):
                    break
            turns += 1
        return turns

    def explain_idle(self, ends):
        """Why nothing retires: what the oldest entry does, or why there is none."""
        head = self.pipeline.window[0] if self.pipeline.window else None
        squash = self.pipeline.last_squash
        if ends:
            self.count_idle("the run ends by a trap", head.pc if head else None)
        elif head is None:
            after = squash is not None and (squash.violated or squash.retired is not None)
            why = "" if not after else " after a violation" if squash.violated else " after a misprediction"
            self.count_idle("window empty" + why, squash.pc if after else None)
        elif head.issued is None and not head.at_once:
            self.head = head
        elif head.done is None and head.issued is not None:
            what = f"load {head.unit}" if head.is_load else head.kind
            self.count_idle(f"oldest executes: {what}", head.pc)
        else:
            self.count_idle("oldest waits to be resolved", head.pc)

    def explain_head(self):
        """The oldest hadn't issued when nothing retired: what Issue then made of it."""
        head = self.head
        if head is not None:
            wait = head.waits[-1] if head.issued is None and head.waits else None
            self.count_idle("oldest begins to execute" if wait is None else f"oldest waits: {wait.reason}", head.pc)

    def count_idle(self, reason, pc):
        self.last_idle = reason, pc
        self.idle[self.last_idle] = self.idle.get(self.last_idle, 0) + 1

    # ---- a cycle in which nothing happens, as in the one before

    def repeat(self, cycle):
        """All waits go on, and nothing retires for what it did before."""
        pipeline = self.pipeline
        for entries in (pipeline.awake, pipeline.outcomes, pipeline.clearable):
            for item in entries:
                wait = item.waits[-1] if item.waits else None
                if wait is not None and wait.last == cycle - 1:
                    wait.last = cycle
                if item.lacking_at == cycle - 1:
                    item.lacking_at = cycle
        if pipeline.counts:
            self.idle[self.last_idle] = self.idle.get(self.last_idle, 0) + 1


def awaited(item):
    """The first writer of its sources that isn't Done, or none."""
    if item.one is not None and item.one.done is None:
        return item.one
    return item.two if item.two is not None and item.two.done is None else None


def a_younger_load_goes(load, issued):
    """Whether one of the entries that issue is a load behind this one."""
    return any(load.serial < item.serial for item in issued if item.is_load)


def named(serial):
    return "nothing" if serial is None else f"entry {serial}"
