"""A whole trace taken through the pipeline, the reasons and the checks."""
from wadrelwy.riscv.kinds import CALL

from . import Fault
from .checks import Checks
from .front_end import FrontEnd
from .items import ADDRESS_PART, DATA_PART
from .pipeline import PREFETCH, Pipeline
from .reasons import Reasons
from .rows import text_of
from .slots import Slots



class Replay:
    """The run that a trace tells. `items` gives what became of each fetched instruction; then `reasons` is complete.

    Another tool may give a pipeline that keeps more of the run. What is counted of cycles is counted of those of the span, from the first
    to the last; `occupancy` is kept where it is asked for. Where it isn't `asked` for reasons, events move the pipeline, and nothing is
    explained, checked or counted. What would grow with the run, the stalls of rename and the lines that come, isn't kept where `only_counts`
    says so.
    """

    def __init__(self, trace, image, description, pipeline=None, span=(1, None), asked=True):
        self.trace = trace
        self.pipeline = pipeline or Pipeline(image, description)
        self.reasons = Reasons(self.pipeline)
        self.front = FrontEnd(self.pipeline, self.reasons.tell)
        self.checks = Checks(self.pipeline, self.reasons.tell)
        self.slots, self.occupancy, self.span = Slots(self.pipeline), None, span
        self.asked, self.retired, self.width = asked, 0, self.pipeline.description.fetch_width
        self.next_serial = 0
        # whether the last cycle had no event and was explained. A tool that looks at more of each cycle is shown all of them
        self.quiet, self.skips = False, type(self) is Replay

    def items(self, until=None):
        """Each fetched instruction, in the order of fetching, as soon as it and all before it are gone.

        Those that are in flight at the end come last. With `until` only the cycles up to that one are read.
        """
        for batch in self.batches(until):
            yield from batch

    def batches(self, until=None):
        """The fetched instructions as `items` has them, those of a cycle in a list."""
        flight, ends = self.pipeline.flight, False
        for row in self.trace:
            if until is not None and row.cycle > until:
                # with the last row the last line is read, which isn't of the cycles before that
                self.trace.end = None
                break
            self.step(row)
            ends = row.ends
            if flight:
                batch = self.gone()
                if batch:
                    yield batch
        self.end(self.trace.end)
        for item in flight:
            if item.open is not None:
                item.wake(self.pipeline.cycle + (not ends))
        yield flight

    def end(self, end):
        """What the last line says: the counts, and that the oldest entry traps."""
        if self.asked:
            self.checks.end(end, self.retired)
        if end and end.how.startswith("trap") and self.pipeline.window:
            self.pipeline.window[0].trapped = self.pipeline.cycle

    def gone(self):
        """Lets go of the instructions that have retired or were squashed, as all before them, and answers them."""
        flight, number = self.pipeline.flight, 0
        for item in flight:
            if item.retired is None and item.squashed is None:
                break
            item.forget()
            number += 1
        gone = flight[:number]
        del flight[:number]
        return gone

    def only_counts(self):
        """From now on nothing is kept that grows with the run."""
        self.front.stalls = self.pipeline.fills = None

    def step(self, row):
        """One cycle."""
        pipeline, counted = self.pipeline, self.pipeline.counts
        pipeline.begin(row.cycle)
        told = len(self.reasons.unexplained) + len(self.reasons.presumed)
        pipeline.counts = self.span[0] <= row.cycle and (self.span[1] is None or row.cycle <= self.span[1])
        if self.quiet and row.empty and not row.ends and counted == pipeline.counts and self.nothing_due(row.cycle):
            self.repeat(row.cycle)
            return
        before = self.retired
        try:
            self.take(row, row.phases())
        except ValueError:
            raise Fault(f"cycle {row.cycle}: a number is none in `{' '.join(row.events)}`") from None
        except (LookupError, AttributeError, TypeError, OverflowError):
            raise Fault(f"cycle {row.cycle}: `{' '.join(row.events)}` can't follow; is it the trace of this image and description?") from None
        if self.occupancy is not None and pipeline.counts:
            self.occupancy.add(pipeline, self.retired - before)
        self.quiet = self.skips and row.empty and told == len(self.reasons.unexplained) + len(self.reasons.presumed)

    def nothing_due(self, cycle):
        """No line and no result comes, and the divider isn't free from this cycle on: the phases find what they found in the cycle before
        (docs/machine.md, "Cycles in which nothing happens")."""
        return cycle not in self.pipeline.dues and cycle not in self.checks.due and self.pipeline.divider.free_from != cycle

    def repeat(self, cycle):
        """Nothing happens in this cycle, as in the one before."""
        self.reasons.repeat(cycle)
        self.front.repeat(cycle)
        self.slots.retire([], False)
        if self.slots.head is not None:
            self.slots.close()
        self.slots.note_again()
        if self.occupancy is not None and self.pipeline.counts:
            self.occupancy.add(self.pipeline, 0)

    def take(self, row, phases):
        """The seven phases, and Clear behind Resolve. After an end in Retire no later phase acts."""
        pipeline = self.pipeline
        fills, completes, resolves, clears, retires, issues, renames, fetches = phases
        if self.asked and not row.ordered:
            self.reasons.tell("the events don't stand in the order of the phases")
        if fills or pipeline.now in pipeline.dues:
            self.fill([event.number for event in fills])
        if completes or pipeline.now in self.checks.due:
            self.complete(self.entries(completes))
        squashed = self.resolve(resolves)
        violated = self.clear(clears)
        self.retire(retires, row.ends)
        if not row.ends:
            self.issue(issues)
            self.rename(renames)
            fetched = self.fetch(fetches)
            if self.asked:
                self.after_fetch(fetched, squashed, violated)
        elif self.asked and (issues or renames or fetches):
            self.reasons.tell("the run has ended in Retire, and a later phase has events")

    def entries(self, events):
        """The entries in flight that these events are of."""
        found = []
        for event in events:
            found.append(self.pipeline.entry(event))
        return found

    def fetch(self, events):
        """What is fetched."""
        found = []
        for event in events:
            found.append(self.pipeline.fetch(event.number))
        return found

    def after_fetch(self, fetched, squashed, violated):
        """Why no more was fetched."""
        self.front.after_fetch(fetched, squashed or violated is not None)
        if violated is not None:
            self.front.after_violation(fetched, violated)

    def fill(self, lines):
        if self.asked:
            self.checks.fill(lines)
        for line in lines:
            self.pipeline.fill(line)

    def complete(self, items):
        if self.asked:
            self.checks.complete(items)
        for item in items:
            self.pipeline.complete(item)

    def resolve(self, events):
        """Answers whether there was a squash."""
        if not events and not self.pipeline.outcomes:
            return False
        event, last = (events[0], events[-1]) if events else (None, None)
        if event is not None and event.name != "res":
            raise Fault(f"cycle {self.pipeline.cycle}: `{text_of(event)}` doesn't follow a res")
        resolved = self.pipeline.entry(event) if event is not None else None
        squashes = last is not None and last.name == "sq"
        if self.asked:
            self.reasons.resolve(None if resolved is None else resolved.serial, squashes)
        if resolved is None:
            return False
        if self.asked:
            self.checks.resolve(resolved, events)
        self.pipeline.resolve(resolved, event.text)
        if squashes:
            self.squash(resolved, last.number, self.pipeline.squash(resolved))
        return squashes

    def squash(self, item, told, dropped):
        """So many entries and items are said to be dropped behind this one, and are."""
        if self.asked:
            self.checks.squash(told, dropped)
            self.slots.squash(item)

    def clear(self, events):
        """Answers the load that is violated, or none."""
        if not events and not self.pipeline.clearable:
            return None
        if events and events[0].name != "clr":
            raise Fault(f"cycle {self.pipeline.cycle}: `{text_of(events[0])}` doesn't follow a clr")
        store = self.pipeline.entry(events[0]) if events else None
        if self.asked:
            self.reasons.clear(None if store is None else store.serial)
        if store is None:
            return None
        if self.asked:
            self.checks.clear(store, events)
        violated = self.pipeline.entry(events[1]) if [event.name for event in events[1:]] == ["vio", "dp", "sq"] else None
        self.pipeline.clear(store)
        if violated is not None:
            self.squash(violated, events[-1].number, self.pipeline.violate(violated))
        return violated

    def retire(self, events, ends):
        retired, item = [], None
        if self.asked:
            self.reasons.retire(events, ends)
        for event in events:
            if event.name == "ret":
                item = self.pipeline.entry(event)
                retired.append(item)
                self.pipeline.retire(item)
            elif not retired or item.serial != event.number:
                raise Fault(f"cycle {self.pipeline.cycle}: `{text_of(event)}` doesn't follow its ret")
            elif event.name == "st":
                if self.asked:
                    self.checks.write(item, event.second, event.text)
                self.pipeline.write(item, event.second, event.text)
            else:
                item.output = event.second
        self.retired += len(retired)
        if self.asked:
            self.after_retire(retired, ends)

    def after_retire(self, retired, ends):
        """What retired has told what it has to, and why no more did."""
        for item in retired:
            if item.is_store or item.kind == CALL or item.written or item.output is not None or item.unit == "fault":
                self.checks.retired(item)
        if ends:
            self.checks.ends(self.trace.end.how, retired)
        self.slots.retire(retired, ends)

    def issue(self, events):
        steps = self.steps(events) if events else []
        items = self.entries(steps)
        if self.asked:
            self.check_issue(steps, items)
        for place in range(len(steps)):
            item = items[place]
            self.pipeline.issue(item, steps[place])
            if self.asked:
                self.checks.issued(item)
        if self.asked:
            self.close()

    def check_issue(self, steps, items):
        """Whether what issues may, before any of it does."""
        for place in range(len(steps)):
            self.begins(items[place], steps[place])
        self.reasons.issue(items)
        if len(steps) > 1:
            self.checks.order(steps)
        for place in range(len(steps)):
            item, event = items[place], steps[place]
            item.goes = item.address_goes = item.data_goes = False
            if event.name != item.event:
                self.checks.unit(item, event.name)
            if event.name == "ld":
                self.checks.access(item, event)
            elif event.name == "div":
                self.checks.division(item, event.second)

    def begins(self, item, event):
        """An entry issues in this cycle."""
        item.goes = True
        item.address_goes = item.address_goes or event.name == ADDRESS_PART
        item.data_goes = item.data_goes or event.name == DATA_PART
        if item.open is not None:
            self.reasons.rouse(item)

    def close(self):
        """Issue is over: what it made of the oldest entry."""
        if self.reasons.head is not None:
            self.reasons.explain_head()
        if self.slots.head is not None:
            self.slots.close()
        self.slots.note()

    def steps(self, events):
        """The events of Issue, those of one load together: behind its first one that of its other line, and that of what is prefetched."""
        steps, first, last = [], None, None
        for event in events:
            if event.name == "ld" and last is not None and last.name == "ld" and last.number == event.number:
                first.rest += (event,)
            elif event.name != PREFETCH:
                first, event.rest = event, ()
                steps.append(event)
            elif last is not None and last.name == "ld":
                first.rest += (event,)
            else:
                raise Fault(f"cycle {self.pipeline.cycle}: `{text_of(event)}` doesn't follow a load")
            last = event
        return steps

    def rename(self, events):
        roomy = not self.asked or bool(events) and len(events) <= self.width and self.front.has_room()
        for event in events:
            if self.asked and event.number != self.next_serial:
                self.reasons.tell(f"entry {event.number} is renamed, where entry {self.next_serial} is the next")
            self.next_serial = event.number + 1
            if self.asked and (not roomy or self.front.call_is_next()):
                self.front.before_rename(event.number)
            item = self.pipeline.rename(event.number, event.second)
            if self.asked:
                self.slots.rename(item)
                if item.awaits:
                    self.reasons.renamed(item)
        if self.asked:
            self.after_rename(len(events))

    def after_rename(self, number):
        """Why no more was renamed."""
        reason = self.front.after_rename(number)
        if reason is not None:
            front = self.pipeline.queue[0]
            self.slots.stall(reason, front.pc)
