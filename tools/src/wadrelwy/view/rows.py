"""A line of a trace as the events of one cycle (docs/formats.md, "The trace")."""
from . import Fault

FILL, COMPLETE, RESOLVE, CLEAR, RETIRE, ISSUE, RENAME, FETCH = range(8)

# the bases of an event's numbers: a serial or a count, an address or a line; one that is kept as its text
COUNT, PLACE, TEXT = 10, 16, 0
# the phase of each event, how many words its text has: the name, and what stands behind colons; and the bases of the first two of these
EVENTS = {
    "fill": (FILL, 2, PLACE, TEXT), "done": (COMPLETE, 2, COUNT, TEXT),
    "res": (RESOLVE, 3, COUNT, TEXT), "bp": (RESOLVE, 3, COUNT, TEXT), "bt": (RESOLVE, 3, COUNT, TEXT), "sq": (RESOLVE, 2, COUNT, TEXT),
    "clr": (CLEAR, 2, COUNT, TEXT), "vio": (CLEAR, 2, COUNT, TEXT), "dp": (CLEAR, 3, COUNT, COUNT),
    "ret": (RETIRE, 2, COUNT, TEXT), "st": (RETIRE, 4, COUNT, PLACE), "call": (RETIRE, 3, COUNT, COUNT),
    "alu": (ISSUE, 2, COUNT, TEXT), "mul": (ISSUE, 2, COUNT, TEXT), "div": (ISSUE, 3, COUNT, COUNT), "agu": (ISSUE, 2, COUNT, TEXT),
    "std": (ISSUE, 2, COUNT, TEXT), "ld": (ISSUE, 4, COUNT, PLACE), "pf": (ISSUE, 3, PLACE, TEXT),
    "ren": (RENAME, 3, COUNT, PLACE), "fet": (FETCH, 2, PLACE, TEXT),
}
WITHOUT_LINE = ("f", "x")
# how the line of a load, of a store, and one that is prefetched may be found, and how a branch or JALR is resolved
FOUND = {"ld": ("h", "m", "j", "2"), "st": ("h", "m"), "pf": ("m", "2"), "res": ("T", "N", "J")}
# what stands for a number where an event has none
NONE = -1

# whether this module is compiled: then lines are read letter by letter, which is some times as fast; else by `split`
COMPILED = not __file__.endswith(".py")
# a number of more digits isn't read letter by letter, nor a name of more letters
MOST_DIGITS, MOST_LETTERS = 15, 4


class Shape:
    """What the events of a name look like: as EVENTS and FOUND say. `key` is the name as a number, `squashes` whether it is that of a
    squash."""

    __slots__ = ("name", "phase", "length", "first", "second", "found", "key", "squashes")

    def __init__(self, name, phase, length, first, second):
        self.name, self.phase, self.length, self.first, self.second, self.found = name, phase, length, first, second, FOUND.get(name)
        self.key, self.squashes = int.from_bytes(name.encode(), "big"), name == "sq"


SHAPES = {name: Shape(name, *shape) for name, shape in EVENTS.items()}
NO_SHAPE = Shape("", 0, 0, TEXT, TEXT)


# found by trial: by it each name has a place of its own in a table of 64
FACTOR = 177567


def place_of(key):
    """Where the shape of a name stands in the table."""
    return key * FACTOR >> 20 & 63


def table_of(shapes):
    """A list that has each shape at its place."""
    table = [NO_SHAPE] * 64
    for shape in shapes:
        table[place_of(shape.key)] = shape
    return table


TABLE = table_of(SHAPES.values())


class Event:
    """An event: its name, and what stands behind it. `number` is the first number: the serial of an entry, or a line or an address; `second`
    the one behind that, negative where there is none; and `text` what is no number, as an outcome, or how a line is found: it may be none. `rest`
    are the events that belong to this one of a load: that of its other line, and of what is prefetched behind it."""

    __slots__ = ("name", "number", "second", "text", "rest")

    def __init__(self, name, number, second=NONE, text=None):
        self.name, self.number, self.second, self.text, self.rest = name, number, second, text, ()

    @property
    def behind(self):
        """What stands behind the first number."""
        return [self.second] * (self.second >= 0) + [self.text] * (self.text is not None)


# the events of the line that was read letter by letter last: they are those of the next one then
POOL: list = []


def read_row(line, number):
    """The row of a line, which has to be the one of this cycle."""
    head = str(number)
    if not line.startswith(head) or len(line) > len(head) + 1 and line[len(head)] != " ":
        raise Fault(f"line {number} is no line of cycle {number}: `{line.strip()[:60]}`")
    row = Row()
    row.begin(number, line)
    return row


class Row:
    """A cycle: its number, its line, whether that has no event, whether the run ended in its Retire, and, once its phases are read, whether
    its events stand in the order of the phases."""

    __slots__ = ("cycle", "line", "empty", "ends", "ordered")

    def begin(self, cycle, line):
        """Its number and its line."""
        self.cycle, self.line, self.empty, self.ends, self.ordered = cycle, line, " " not in line, False, True

    @property
    def events(self):
        """The texts of its events in their order."""
        return self.line[:-1].split(" ")[1:]

    def phases(self):
        """The events of each phase; they may last until the next row's are read. What is dropped behind a violation is of Clear."""
        return COMPILED and scan(self.line) or self.split()

    def split(self):
        """The events of each phase; what is no event of a trace is refused."""
        phases, reached = ([], [], [], [], [], [], [], []), FILL
        for text in self.events:
            words = text.split(":")
            name, number = words[0], len(words)
            shape = SHAPES.get(name, NO_SHAPE)
            phase, second = shape.phase, shape.second
            if number != shape.length or shape.found is not None and words[-1] not in shape.found:
                if not (name == "ld" and number == 3 and words[2] in WITHOUT_LINE):
                    raise Fault(f"cycle {self.cycle}: `{text}` is no event of a trace")
                second = TEXT
            elif name == "sq" and phases[CLEAR]:
                phase = CLEAR
            self.ordered = self.ordered and phase >= reached
            reached = phase
            told = words[-1] if number == 4 or number == 3 and not second else None
            phases[phase].append(Event(name, int(words[1], shape.first), int(words[2], second) if second else NONE, told))
        return phases


def scan(line):
    """The events of each phase, read letter by letter; None where one isn't just as a trace has it, or stands behind one of a later phase."""
    if not line.isascii():
        return None
    phases, letters, pool, number = ([], [], [], [], [], [], [], []), line.encode(), POOL, 0
    place, last, reached = line.find(" "), len(letters) - 1, FILL
    while 0 <= place < last:
        behind = end_of_word(letters, place + 1, last)
        shape = shape_of(letters, place + 1, behind)
        if behind == last or letters[behind] != ord(":") or shape.length == 0:
            return None
        if number == len(pool):
            pool.append(Event("", 0))
        event = pool[number]
        number += 1
        place = read_event(line, letters, behind, last, event, shape)
        if place < 0:
            return None
        turn = shape.phase
        if shape.squashes and phases[CLEAR]:
            turn = CLEAR
        if turn < reached:
            return None
        reached, phase = turn, phases[turn]
        phase.append(event)
    return phases


def shape_of(letters, place, behind):
    """The shape of the events of a name; one without words where none has it."""
    key, table = 0, TABLE
    if behind - place > MOST_LETTERS:
        return NO_SHAPE
    while place < behind:
        key = key << 8 | letters[place]
        place += 1
    shape = table[place_of(key)]
    return shape if shape.key == key else NO_SHAPE


def read_event(line, letters, place, last, event, shape):
    """Reads what stands behind an event's name, from the first colon on; answers the place behind it, or -1 where it isn't of this shape."""
    begin, place = place + 1, end_of_word(letters, place + 1, last)
    event.name, event.number, event.second = shape.name, number_of(letters, begin, place, shape.first), -1
    event.text, event.rest = None, ()
    if event.number < 0:
        return -1
    if shape.length > 2:
        if place == last or letters[place] != ord(":"):
            return -1
        begin, place = place + 1, end_of_word(letters, place + 1, last)
        # in the place of a line a letter alone is that of an access without one
        alone = shape.length == 4 and place == begin + 1 and (place == last or letters[place] == ord(" "))
        if shape.second == 0 or alone:
            event.text = line[begin:place]
        else:
            event.second = number_of(letters, begin, place, shape.second)
            if event.second < 0:
                return -1
        if shape.length == 4 and not alone:
            if place == last or letters[place] != ord(":"):
                return -1
            begin, place = place + 1, end_of_word(letters, place + 1, last)
            event.text = line[begin:place]
        elif alone:
            return place if shape.name == "ld" and event.text in WITHOUT_LINE else -1
    if place < last and letters[place] != ord(" ") or shape.found is not None and event.text not in shape.found:
        return -1
    return place


def end_of_word(letters, place, last):
    """Where the next blank or colon stands, or the line ends."""
    while place < last and letters[place] != ord(":") and letters[place] != ord(" "):
        place += 1
    return place


def number_of(letters, place, behind, base):
    """The number that stands there; -1 where it has another letter, none or too many."""
    if place == behind or behind - place > MOST_DIGITS:
        return -1
    number = 0
    while place < behind:
        digit = letters[place] - ord("0")
        if digit > 9:
            digit = digit - 39 if digit > 48 else 16
        if not 0 <= digit < base:
            return -1
        number = number * base + digit
        place += 1
    return number


def text_of(event):
    """The text of an event."""
    shape = SHAPES[event.name]
    words = [event.name, number_text(event.number, shape.first)]
    if event.second >= 0:
        words.append(number_text(event.second, shape.second))
    return ":".join(words + ([event.text] if event.text is not None else []))


def number_text(number, base):
    return f"{number:08x}" if base == PLACE else str(number)
