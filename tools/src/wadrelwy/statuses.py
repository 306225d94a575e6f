"""The statuses of all commands: one number has one meaning. 0 to 8 mean what they mean of the built programs (docs/formats.md, "Statuses"),
and docs/using.md, "Statuses of the tools", has the table of the answers that go into each."""
from typing import Iterable

HOLDS = 0
SHOWS = 1
REFUSED = 2
CUT = 3
DESCRIPTION, IMAGE, UNREAD, UNWRITTEN, MEMORY = 4, 5, 6, 7, 8
PUBLISHED = 10
EXIT_VALUE = 11
TRAPPED = 12
VACUOUS = 13
SAME = 14
EVERY_CORE = 15
REFUTED = 16
# and the number of the signal, as shells tell it
KILLED = 128
INTERRUPTED = 130

# of answers, the worst first: what the status of a table is
WORST_FIRST = (REFUTED, SHOWS, CUT, TRAPPED, VACUOUS, SAME, EXIT_VALUE, PUBLISHED, HOLDS, EVERY_CORE)


def worst(statuses: Iterable[int]) -> int:
    """The status of a table with answers of these statuses; of an empty one HOLDS."""
    return min(statuses, key=WORST_FIRST.index, default=HOLDS)
