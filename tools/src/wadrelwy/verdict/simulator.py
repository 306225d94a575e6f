"""What the built programs write, and what the simulator says of two images."""
import os
import re
import subprocess
import sys
import tempfile
from typing import NamedTuple, Optional

from wadrelwy import built_programs
from wadrelwy.machine import notes
from wadrelwy.machine.passing import Screen
from wadrelwy.view import Fault
from wadrelwy.view.trace import read_end

RAN = (0, 1, 3)
ANSWER = re.compile(r"premise (yes|no)\n(?:equal|unequal (end|\d+))\nretired (\d+) cycles (\d+)\n")
TAIL = 200


class Written:
    """The lines of a trace that the simulator writes into a file of its own, to be read more than once; the file goes with this value."""

    def __init__(self, program, *words):
        self.file = tempfile.TemporaryFile("w+", encoding="ascii", errors="replace")
        note = started(program, words, self.file)
        size = self.file.seek(0, os.SEEK_END)
        self.file.seek(max(size - TAIL, 0))
        lines = self.file.read().splitlines()
        self.last = lines[-1] if lines else ""
        self.size = size
        if not self.last.startswith("end "):
            raise Fault(f"{program} writes no trace for `{' '.join(words)}`: is it the simulator? {note}".rstrip())

    def __iter__(self):
        self.file.seek(0)
        yield from self.file


class Pair(NamedTuple):
    """The traces of two images as lines; and what the simulator's command `pair` says of them: whether the premises of noninterference
    are met, and the first cycle in which the traces aren't equal, or none."""
    one: object
    two: object
    premise: bool
    unequal: Optional[int]

    @property
    def ends(self):
        """The last lines of the two."""
        return tuple(read_end(lines.last if isinstance(lines, Written) else lines[-1].strip()) for lines in (self.one, self.two))

    @property
    def size(self):
        """How many bytes the first trace has in its file."""
        return self.one.size if isinstance(self.one, Written) else 0

    @property
    def is_cut(self):
        """Whether the budget ended a run: then all that is said is of the cycles up to there."""
        return any(end.how == "budget" for end in self.ends)


class Answer(NamedTuple):
    """The three lines of `pair`: the premises, the first unequal cycle or none, and what the first run retired in how many cycles."""
    premise: bool
    unequal: Optional[int]
    cycles: int
    retired: int = 0


def started(program, words, out, screen=sys.stderr):
    """Runs the program for these words, what it writes going there; answers the note that it leaves where it ran. That it goes on is told on a
    screen."""
    built_programs.refuse_unproved(program)
    try:
        with Screen(" ".join([os.path.basename(program), *words[:1]]), screen):
            ended = subprocess.run([program, *words], stdout=out, stderr=subprocess.PIPE, text=True, errors="replace", check=False)
    except OSError as error:
        raise Fault(f"{program}: {error.strerror}") from None
    note = built_programs.note_of(ended.stderr)
    if ended.returncode not in RAN:
        raise Fault(f"{' '.join(words)}: status {ended.returncode}, {notes.told(note, {})} (docs/using.md, \"Refusals\")")
    return note


def run(program, *words, screen=sys.stderr):
    """What the program writes for these words."""
    with tempfile.TemporaryFile("w+", encoding="utf-8", errors="replace") as file:
        started(program, words, file, screen)
        file.seek(0)
        return file.read()


def compare(program, description, one, two, cycles):
    """What the simulator says of two images: how they compare, and their traces."""
    said = answer(run(program, "pair", description, one, two, "--cycles", str(cycles)), program)
    traces = (Written(program, "trace", description, image, "--cycles", str(cycles)) for image in (one, two))
    return Pair(*traces, said.premise, said.unequal)


def answer(text, program="the program"):
    """What the three lines of `pair` say. Where only the ends differ, the last cycle is the first unequal one."""
    said = ANSWER.fullmatch(text)
    if said is None:
        raise Fault(f"{program} doesn't answer `pair` as the simulator does: is it the simulator?")
    premise, first, retired, cycles = said.groups()
    unequal = None if first is None else int(cycles if first == "end" else first)
    return Answer(premise == "yes", unequal, int(cycles), int(retired))
