"""The cache, the miss registers and the divider, as the events of a trace move them (docs/machine.md, "State")."""


class Miss:
    """What a miss register waits for: the cycle in which its line comes, and whether it comes from memory."""

    __slots__ = ("due", "from_memory")

    def __init__(self, due, from_memory):
        self.due, self.from_memory = due, from_memory


class Cache:
    """A level of the cache: for each set its lines, the most recently used first."""

    def __init__(self, line, sets, ways):
        self.line, self.ways = line, ways
        self.sets = [[] for _ in range(sets)]

    def set_of(self, line):
        """The lines of its set; none where there are no sets."""
        return self.sets[line // self.line % len(self.sets)] if self.sets else []

    def has(self, line):
        return line in self.set_of(line)

    def touch(self, line):
        """A hit moves its line to the front."""
        lines = self.set_of(line)
        if line in lines:
            lines.remove(line)
            lines.insert(0, line)

    def fill(self, line):
        """A line enters the front of its set; the line that then is one too many is dropped, and answered."""
        if not self.sets:
            return None
        lines = self.set_of(line)
        lines.insert(0, line)
        return lines.pop() if len(lines) > self.ways else None


class Divider:
    """The cycle from which on it is free, and the item that used it last."""

    def __init__(self):
        self.free_from, self.user = 0, None

    def take(self, item, until):
        self.free_from, self.user = until, item

    def drop_from(self, serial):
        """Where its user is dropped it is free at once."""
        if self.user is not None and self.user.serial >= serial:
            self.free_from, self.user = 0, None
