"""The slots of retirement of a trace's cycles by reason, as docs/formats.md, "The slots of a run", has them: from the events of each line, and the
entries and the queue once the cycle is over, as the viewer's pipeline has them. It is taken with values, since a store that faults keeps what is
younger from being visible, which no event tells."""
import event_counts
from wadrelwy.riscv.kinds import CALL, DIVISION, LOAD, MULTIPLICATION, STORE
from wadrelwy.verdict.loaded import load
from wadrelwy.verdict.values import Valued
from wadrelwy.view.description import DELAY, HOLD, read_description
from wadrelwy.view.replay import Replay
from wadrelwy.view.trace import Trace

REASONS = """front_end room misprediction violation call simple multiplier divider store load_first load_second load_memory registers resolve
clear store_port defence end""".split()
NAMES = [f"slots_{name}" for name in ("base", *REASONS)]
MOST = 18446744073709551615
EXECUTES = {MULTIPLICATION: "multiplier", DIVISION: "divider", STORE: "store"}
AWAITS = {LOAD: "registers", DIVISION: "divider", STORE: "store"}
# how many entries are kept in mind, by the remainders of their serials
PLACES = 64


def cycles(trace, image, description):
    """Of each cycle how many retire, how many slots are empty, and why they are."""
    run, noted = replayed(trace, image, description), {}
    following, late_before, first_before, found = "front_end", "front_end", None, []
    for row in run.trace:
        events = [event.split(":") for event in row.events]
        run.step(row)
        names = [name for name, *_ in events]
        late = following
        for name, before in zip(names, ["", *names]):
            if name == "sq":
                late = "violation" if before == "dp" else "misprediction"
            elif name == "call":
                late = "call"
        first = next((int(words[1]) for words in events if words[0] == "ren"), None)
        retired = names.count("ret")
        head = run.pipeline.window[0] if run.pipeline.window else None
        if row.ends:
            reason = "end"
        elif head is None:
            reason = late
        elif head.kind == CALL:
            reason = "call"
        elif first is not None and head.serial >= first:
            reason = late
        elif first_before is not None and head.serial >= first_before and begun(head):
            reason = late_before
        else:
            reason = does(head, run.pipeline, times(noted, head))
        if retired < description.retire_width:
            note(noted, oldest_kept(run.pipeline), first)
        found.append((retired, max(description.retire_width - retired, 0), reason))
        short = len(run.pipeline.queue) > names.count("fet") and names.count("ren") < description.fetch_width
        following, late_before, first_before = "room" if short else late if first is None else "front_end", late, first
    return found


def replayed(trace, image, description):
    """A trace's run, to be taken through with values. No reason is asked for."""
    return Replay(trace, image, description, Valued(image, description, {}), asked=False)


# ---- What the defence alone keeps


def oldest_kept(pipeline):
    """The oldest entry that waits with all that it reads and isn't visible, where the defence doesn't let it issue; else none."""
    asked = next((entry for entry in pipeline.window if entry.waiting and has_operands(entry) and pipeline.is_hidden(entry)), None)
    return None if asked is None or is_let(asked, pipeline) else asked


def has_operands(entry):
    """Whether the writers of all that it reads are Done."""
    return all(writer is None or writer.done is not None for writer in (entry.one, entry.two))


def is_let(entry, pipeline):
    """Whether the defence lets it issue."""
    hidden, defence = pipeline.is_hidden, pipeline.description.defence
    if defence == HOLD and any(writer.is_load and hidden(writer) for writer in (entry.one, entry.two) if writer is not None):
        return False
    if defence == DELAY and (entry.is_load or entry.is_store or entry.divides) and hidden(entry):
        return False
    shown = [entry.root_one] if entry.is_load else [entry.root_one, entry.root_two] if entry.divides else []
    return not any(map(hidden, shown))


def note(noted, kept, first):
    """The cycle counts for this entry, if there is one, unless it was renamed in this cycle. Its place has no other entry then."""
    if kept is not None and (first is None or kept.serial < first):
        noted[kept.serial % PLACES] = kept.serial, times(noted, kept) + 1


def times(noted, entry):
    """How many cycles counted for an entry, as far as that is kept in mind."""
    serial, number = noted.get(entry.serial % PLACES, (None, 0))
    return number if serial == entry.serial else 0


# ---- What the oldest entry does


def begun(head):
    """Whether it has issued, a store with both its parts."""
    return head.at_once or (head.address_at >= 0 and head.data_at >= 0 if head.is_store else head.issued is not None)


def does(head, pipeline, kept):
    """Why an entry that wasn't renamed lately hasn't retired, for which so many cycles counted in which the defence kept it."""
    if not begun(head):
        return AWAITS.get(head.kind, "simple")
    if head.done is not None:
        return ("store_port" if pipeline.is_cleared(head) else "clear") if head.is_store else "resolve"
    if 0 < kept and head.due is not None and head.due <= pipeline.cycle + kept:
        return "defence"
    if not head.is_load:
        return EXECUTES.get(head.kind, "simple")
    time, of = head.due - head.issued, pipeline.description
    second = of.second_sets > 0 and time <= of.second_latency
    return "load_first" if time <= of.hit_latency else "load_second" if second else "load_memory"


def counted(found):
    """The numbers of these cycles, in the order of the table."""
    numbers = dict.fromkeys(NAMES, 0)
    for retired, empty, reason in found:
        numbers["slots_base"] += retired
        numbers[f"slots_{reason}"] += empty
    return [min(numbers[name], MOST) for name in NAMES]


def text(trace, image, description, every=None):
    """The text of `stt_stats` by a trace and what it is of, with a line for each so many cycles where they are asked for (docs/formats.md, "The
    program stt_stats")."""
    *rows, end = trace.splitlines()
    assert [row.split(" ")[0] for row in rows] == [str(cycle) for cycle in range(1, len(rows) + 1)] and end.startswith("end "), end
    described = read_description(description)
    found = cycles(Trace(iter(trace.splitlines(keepends=True))), load(image, described), described)
    lines = []
    for last in range(every, len(rows) + 1, every) if every else ():
        stretch = slice(last - every, last)
        lines.append(" ".join(map(str, [last, *event_counts.counted(rows[stretch]), *counted(found[stretch])])))
    numbers = zip((*event_counts.NAMES, *NAMES), (*event_counts.counted(rows), *counted(found)))
    return "".join(f"{line}\n" for line in [*lines, *(f"{name} {number}" for name, number in numbers), end])
