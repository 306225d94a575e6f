"""What the lines of a trace come to, read as docs/formats.md, "The trace", has them. Nothing of it is taken from the tools or from the programs."""
import re

A = "[0-9a-f]{8}"
# each event by its text, and what it is counted as; a group is a number that is added, to the second name
EVENTS = [(re.compile(text), *names) for text, *names in (
    (rf"fill:{A}", "fills"), (r"done:\d+", "done"), (r"res:\d+:T", "branches_taken"), (r"res:\d+:N", "branches_not_taken"), (r"res:\d+:J", "jumps"),
    (r"bp:\d+:\d", "counters"), (rf"bt:\d+:{A}", "targets"), (r"sq:(\d+)", None, "dropped"), (r"clr:\d+", "cleared_stores"),
    (r"vio:\d+", "violations"), (r"dp:\d+:1", "dependence_bits"), (r"ret:\d+", "retired"), (rf"st:\d+:{A}:h", "store_hits"),
    (rf"st:\d+:{A}:m", "store_misses"), (r"call:\d+:(\d+)", "calls", "output_bytes"), (r"alu:\d+", "alu"), (r"mul:\d+", "mul"),
    (r"agu:\d+", "store_addresses"), (r"std:\d+", "store_data"), (r"div:\d+:(\d+)", "divisions", "division_cycles"),
    (rf"ld:\d+:{A}:h", "load_hits"), (rf"ld:\d+:{A}:m", "load_misses"), (rf"ld:\d+:{A}:j", "load_joins"), (rf"ld:\d+:{A}:2", "load_second"),
    (r"ld:\d+:f", "load_forwards"), (r"ld:\d+:x", "load_faults"), (rf"pf:{A}:m", "prefetch_memory"), (rf"pf:{A}:2", "prefetch_second"),
    (rf"ren:\d+:{A}", "renamed"), (rf"fet:{A}", "fetched"))]
# what a squash is counted as, by the event that it stands right behind
SQUASHES = [(re.compile(text), name) for text, name in (
    (r"bp:.*", "mispredicted_branches"), (r"bt:.*|res:\d+:J", "mispredicted_jumps"), (r"dp:.*", "load_squashes"))]
NAMES = """retired fetched renamed alu mul divisions division_cycles store_addresses store_data load_hits load_second load_misses load_joins
load_forwards load_faults prefetch_second prefetch_memory fills done branches_taken branches_not_taken jumps mispredicted_branches
mispredicted_jumps counters targets cleared_stores violations dependence_bits load_squashes dropped store_hits store_misses calls
output_bytes""".split()
MOST = 18446744073709551615


def count(numbers, event, before):
    """Counts an event of a line, which stands right behind another one, or behind none."""
    found, (first, *added) = next((match, names) for text, *names in EVENTS if (match := text.fullmatch(event)))
    if first:
        numbers[first] += 1
    for name in added:
        numbers[name] += int(found[1])
    if event.startswith("sq:"):
        for text, name in SQUASHES:
            if text.fullmatch(before):
                numbers[name] += 1


def counted(rows):
    """The numbers of these lines, in the order of the table."""
    numbers = dict.fromkeys(NAMES, 0)
    for row in rows:
        events = row.split(" ")[1:]
        for event, before in zip(events, ["", *events]):
            count(numbers, event, before)
    return [min(numbers[name], MOST) for name in NAMES]
