"""Whether an entry is one of the path or of a wrong one, and what led there: read from the trace (docs/formats.md, "The trace")."""
import re
import subprocess
from collections import deque
from typing import NamedTuple, Optional

from wadrelwy import built_programs
from wadrelwy.view import Fault

# so many lines are kept, in which what is in flight was renamed
KEPT = 100000
ON_PATH, MISPREDICTED, PASSED, TRAPPED, UNTOLD = "path", "mispredicted", "passed", "trapped", "untold"
# events of an entry in which it may show something
OWN = ("res", "clr", "ret", "st", "call", "div", "agu", "std", "ld")
EVENT = re.compile(r"(\w+):(\d+)(?::([0-9a-f]+))?")


class Fate(NamedTuple):
    """What became of an entry. Where it was dropped: the address of the branch or JALR that had been mispredicted, and where it was predicted to
    go on; or the address of the load that had passed a store, and that of the store."""
    kind: str
    pc: Optional[int] = None
    other: Optional[int] = None


class Scan:
    """A trace's lines, followed up to where it is told what becomes of an entry that shows something in some cycle."""

    def __init__(self, serial, cycle, pc):
        self.serial, self.cycle, self.pc = serial, cycle, pc
        self.lines = deque(maxlen=KEPT)

    def fate(self, lines):
        """What became of the entry, as far as these lines tell. Lines that stop without the last one are of a simulator that was ended, and tell
        nothing."""
        for number, line in enumerate(lines, 1):
            if not line.endswith("\n"):
                break
            if line.startswith("end "):
                return Fate(TRAPPED if line.startswith("end trap") else UNTOLD)
            self.lines.append(line)
            if number == self.cycle and self.renamed(self.serial) != self.pc:
                raise Fault(f"the trace has no entry {self.serial} at {self.pc:08x} in cycle {self.cycle}: the simulator isn't of the same "
                            f"tree as what looks for secrets")
            if number >= self.cycle:
                found = self.became(line, number == self.cycle)
                if found is not None:
                    return found
        raise Fault("the simulator's trace was cut, so it doesn't tell whether what shows is on the path: ask again")

    def became(self, line, first):
        """What a line tells of it; in the first one what stands before the entry's own event was before it showed."""
        events = EVENT.findall(line)
        own = [at for at, event in enumerate(events) if event[0] in OWN and int(event[1]) == self.serial]
        begins = own[0] if first and own else 0
        resolved = cleared = violated = None
        for at, (name, number, _) in enumerate(events):
            if name == "res":
                resolved, violated = int(number), None
            elif name == "clr":
                cleared = int(number)
            elif name == "vio":
                violated = int(number)
            elif at < begins:
                continue
            elif name == "ret" and int(number) == self.serial:
                return Fate(ON_PATH)
            elif name == "sq" and violated is not None and violated <= self.serial:
                return Fate(PASSED, self.renamed(violated), self.renamed(cleared))
            elif name == "sq" and violated is None and resolved < self.serial:
                return Fate(MISPREDICTED, self.renamed(resolved), self.renamed(resolved + 1))
        return None

    def renamed(self, serial):
        """The address of an entry; none where it isn't in the lines that are kept."""
        word = f" ren:{serial}:"
        for line in reversed(self.lines):
            at = line.find(word)
            if at >= 0:
                return int(line[at + len(word):at + len(word) + 8], 16)
        return None


def fate_of(program, description, image, shown, cycles):
    """What became of the entry that shows something, in a run of the simulator that goes on until that is told."""
    built_programs.refuse_unproved(program)
    words = [program, "trace", description, image, "--cycles", str(cycles)]
    with subprocess.Popen(words, stdout=subprocess.PIPE, stderr=subprocess.DEVNULL, text=True, errors="replace") as child:
        try:
            return Scan(shown.serial, shown.cycle, shown.pc).fate(child.stdout)
        finally:
            child.kill()


def sentence(fate, texts):
    """It as a line of a verdict."""
    if fate.kind == ON_PATH:
        return "on the path: the instruction retires"
    if fate.kind == MISPREDICTED:
        predicted = f", which was predicted to go on at {texts.image.named(fate.other)}" if fate.other is not None else ""
        return f"on a wrong path, behind {told(fate.pc, texts)}{predicted}"
    if fate.kind == PASSED:
        return f"on a wrong path, from {told(fate.pc, texts)} on, which passed the store {told(fate.other, texts)}"
    if fate.kind == TRAPPED:
        return "not on the path: a trap ends the run before the instruction retires"
    return "not told: the run ends before the instruction retires or is dropped"


def told(pc, texts):
    return "an instruction renamed long before" if pc is None else texts.place(pc)


def short(fate, place):
    """It in a cell of a table; `place` names an address."""
    if fate.kind == MISPREDICTED:
        return f", wrong path behind `{place(fate.pc)}`"
    if fate.kind == PASSED:
        return f", wrong path: `{place(fate.pc)}` passed the store `{place(fate.other)}`"
    return {ON_PATH: ", on the path", TRAPPED: ", not on the path: a trap"}.get(fate.kind, "")
