"""What a window takes. `stt_stats --every K` tells what is counted in each K cycles of a core's run, retired instructions among it, and its last
lines tell the names of the numbers (docs/formats.md, "The program stt_stats"). This takes the names from that text, whichever there are, adds
the rows of the window, and ends the program behind it. No other module knows how a core's run is looked at."""
import os
import re
import subprocess
import tempfile
import time
from typing import IO, Iterable, Iterator, Mapping, NamedTuple, Optional, Sequence

from wadrelwy import Fault, built_programs
from wadrelwy.machine import notes

RETIRED = "retired"
# a window is told to a hundredth of its instructions, and at most to so many cycles
FINEST, MOST_CYCLES = 100, 100
# how long the rows of a run are left to gather, in seconds, and how many bytes are taken at once: a pipe holds no more
PAUSE, MOST_READ = 0.002, 65536
# more cycles than any window takes
FOREVER = 4294967295
# a run of so many cycles, told in so many rows, shows the names, and that the rows have them in their order
LOOKED_AT, LOOKED_EVERY = 64, 16
RAN = (0, 1, 3)
ROW = re.compile(r"\d+(?: \d+)+")
COUNT = re.compile(r"([a-z_][a-z0-9_]*) (\d+)")
END = re.compile(r"end .* retired (\d+) cycles (\d+)")
TOLD = re.compile(r"cycle (\d+) to cycle (\d+)((?: [a-z_][a-z0-9_]* \d+)+)")

Names = Sequence[str]


class Taken(NamedTuple):
    """What a window took: the cycles at whose ends it begins and ends, and what was counted between them. They are the first ones told by which
    so many have retired, so the window begins and ends some instructions later than was asked for."""
    first_cycle: int
    last_cycle: int
    counts: Mapping[str, int]

    @property
    def cycles(self) -> int:
        return self.last_cycle - self.first_cycle

    @property
    def retired(self) -> int:
        return self.counts[RETIRED]

    @property
    def each(self) -> float:
        """Cycles per instruction."""
        return self.cycles / self.retired


def every(length: int) -> int:
    """After how many cycles a row is told, where a window has so many instructions."""
    return max(1, min(MOST_CYCLES, length // FINEST))


def line_of(taken: Taken) -> str:
    return f"cycle {taken.first_cycle} to cycle {taken.last_cycle} " + " ".join(f"{name} {number}" for name, number in taken.counts.items())


def read_taken(line: str) -> Optional[Taken]:
    """What a line tells; none where it is no such line."""
    found = TOLD.fullmatch(line)
    if not found:
        return None
    counts = {name: int(number) for name, number in COUNT.findall(found[3])}
    taken = Taken(int(found[1]), int(found[2]), counts)
    return taken if taken.cycles > 0 and counts.get(RETIRED, 0) > 0 else None


def other_program(program: str) -> Fault:
    return Fault(f"{program} doesn't answer as {built_programs.STATS} does: is it that program?")


def names_in(lines: Sequence[str]) -> Optional[Names]:
    """The names of the numbers, by the text of a run that is told in rows; none where it isn't such a text, or its rows don't add to the whole."""
    rows = [list(map(int, line.split(" "))) for line in lines if ROW.fullmatch(line)]
    found = [COUNT.fullmatch(line) for line in lines[len(rows):-1]]
    end = END.fullmatch(lines[-1]) if lines else None
    names, numbers = zip(*((each[1], int(each[2])) for each in found if each)) if all(found) and found else ((), ())
    if end is None or RETIRED not in names or len(set(names)) < len(names) or any(len(row) != len(names) + 1 for row in rows):
        return None
    sums = [sum(row[at] for row in rows) for at in range(1, len(names) + 1)]
    is_whole = bool(rows) and rows[-1][0] == int(end[2])
    agree = all(part == number if is_whole else part <= number for part, number in zip(sums, numbers))
    return names if agree and numbers[names.index(RETIRED)] == int(end[1]) else None


def names_of(program: str, description: str, image: str) -> Names:
    """The names of what the program counts. What it refuses is refused."""
    words = [program, description, image, "--cycles", str(LOOKED_AT), "--every", str(LOOKED_EVERY)]
    ran = subprocess.run(words, capture_output=True, text=True, errors="replace", check=False)
    if ran.returncode not in RAN:
        note = notes.told(built_programs.note_of(ran.stderr), {})
        raise Fault(f"{description}: status {ran.returncode}, {note or ran.stdout[-60:].strip()} (docs/using.md, \"Refusals\")")
    names = names_in(ran.stdout.splitlines())
    if names is None:
        raise other_program(program)
    return names


class Counting:
    """Adds the rows of a text until the window is behind: `found` is what it took. Those before it are looked at for what retired alone, and
    `before` keeps them."""

    def __init__(self, names: Names, first: int, last: int) -> None:
        self.names, self.first, self.last, self.place, self.retired = names, first, last, names.index(RETIRED) + 1, 0
        self.before: list[str] = []
        self.begin: Optional[int] = None if first else 0
        self.sums, self.told, self.found = [0] * len(names), [], None  # type: list[int], list[int], Optional[Taken]

    def row(self, line: str) -> None:
        numbers = line.split(" ")
        if len(numbers) != len(self.names) + 1:
            raise Fault("a row of other numbers")
        self.retired += int(numbers[self.place])
        if self.begin is None:
            self.before.append(line)
            self.begin = int(numbers[0]) if self.retired >= self.first else None
            return
        self.sums = [a + int(b) for a, b in zip(self.sums, numbers[1:])]
        if self.retired >= self.last:
            self.take(int(numbers[0]))

    def take(self, cycle: int) -> None:
        assert self.begin is not None
        self.found = Taken(self.begin, cycle, dict(zip(self.names, self.sums)))

    def ended(self, retired: int, cycles: int) -> None:
        """The run ends behind the last row, so that the window has what is in the whole and not in the rows before it."""
        if self.begin is not None and retired >= self.last and cycles > self.begin:
            before = [sum(column) for column in zip(*(map(int, line.split(" ")[1:]) for line in self.before))] or [0] * len(self.names)
            self.sums = [whole - part for whole, part in zip(self.told, before)]
            self.take(cycles)

    def line(self, line: str) -> None:
        if line[:1].isdigit():
            self.row(line)
        elif end := END.fullmatch(line):
            if len(self.told) == len(self.names):
                self.ended(*map(int, end.groups()))
        elif number := COUNT.fullmatch(line):
            self.told.append(int(number[2]))


def taken_in(lines: Iterable[str], names: Names, first: int, last: int) -> Optional[Taken]:
    """What a text tells of the window from `first` to `last` retired instructions; none where it ends before. A last line without its end is
    none."""
    counting = Counting(names, first, last)
    for line in lines:
        if not line.endswith("\n"):
            break
        counting.line(line[:-1])
        if counting.found is not None:
            break
    return counting.found


class Window(NamedTuple):
    """A window of a run: how many have retired before it and at its end, of an image under a description, and the program that counts."""
    program: str
    description: str
    image: str
    first: int
    last: int


def lines_of(child: "subprocess.Popen[bytes]") -> Iterator[str]:
    """The lines of what it writes, the last one without its end where it has none. They are taken many at a time: to wake for each costs more
    than what a row tells."""
    assert child.stdout is not None
    left = ""
    while data := os.read(child.stdout.fileno(), MOST_READ):
        *lines, left = (left + data.decode("ascii", "replace")).split("\n")
        yield from (f"{line}\n" for line in lines)
        time.sleep(PAUSE)
    yield left


def begun(window: Window, rows: int, notes_to: IO[bytes]) -> "subprocess.Popen[bytes]":
    words = [window.program, window.description, window.image, "--cycles", str(FOREVER), "--every", str(rows)]
    return subprocess.Popen(words, stdout=subprocess.PIPE, stderr=notes_to, start_new_session=True, env=built_programs.with_large_pages())


def measured(window: Window, names: Names, children: "set[subprocess.Popen[bytes]]") -> Taken:
    """What a window takes, in a run of the image from its start. While the program runs it is one of `children`."""
    with tempfile.TemporaryFile() as said:
        child = begun(window, every(window.last - window.first), said)
        children.add(child)
        try:
            found = taken_in(lines_of(child), names, window.first, window.last)
        finally:
            assert child.stdout is not None
            child.stdout.close()
            status = child.wait()
            children.discard(child)
        said.seek(0)
        note = built_programs.note_of(said.read().decode(errors="replace"))
    if found is None:
        raise Fault(f"{window.image} under {window.description}: the run ends before {window.last} have retired, with status {status} {note}".rstrip())
    return found


# the same by POSIX's shell and awk, for lists of commands: `$4` and `$5` are `first` and `last`, and `said` is the line, if there is one. A line
# that was cut has `over` behind it, and is none
MORE = " FIRST LAST"
SCRIPT = """said=$({{ "$program" "$description" "$image" --cycles {forever} --every {rows}; echo over; }} 2> /dev/null | awk -v first="$4" -v last="$5" '
    BEGIN {{ n = split("{names}", name, " "); if (first == 0) {{ begun = 1; from = 0 }} }}
    function tell(to) {{
      line = "cycle " from " to cycle " to
      for (i = 1; i <= n; i++) line = line " " name[i] " " (sum[i] + 0)
      print line
      exit
    }}
    /^[0-9][0-9 ]*$/ && NF == n + 1 {{
      retired += ${place}
      if (begun) {{
        for (i = 1; i <= n; i++) sum[i] += $(i + 1)
        if (retired >= last) tell($1)
      }} else {{
        for (i = 1; i <= n; i++) before[i] += $(i + 1)
        if (retired >= first) {{ begun = 1; from = $1 }}
      }}
    }}
    /^[a-z_][a-z0-9_]* [0-9]+$/ {{ whole[++told] = $2 }}
    /^end .* retired [0-9]+ cycles [0-9]+$/ && begun && told == n && $(NF - 2) >= last && $NF > from {{
      for (i = 1; i <= n; i++) sum[i] = whole[i] - before[i]
      tell($NF)
    }}')
  status=2
  [ -n "$said" ] && status=0"""
WHOLE = '"0:cycle "*" to cycle "*" retired "*'
STATUSES = "The status is 0 where the window was measured; else it is another, and there is no result."


def script(names: Names, length: int) -> str:
    """What a command of the lists does."""
    return SCRIPT.format(forever=FOREVER, rows=every(length), names=" ".join(names), place=names.index(RETIRED) + 2)
