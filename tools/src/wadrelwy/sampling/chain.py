"""Images that begin at places of a run, each made of the one before it: so a chain goes over the instruction set's run once, however many they are."""
import subprocess
import tempfile
from copy import copy
from typing import IO, NamedTuple, Optional

from wadrelwy import Fault, built_programs
from wadrelwy.going_on import room, stub, written
from wadrelwy.going_on.report import Report, Stretch, read_report
from wadrelwy.going_on.standing import Standing, see_code
from wadrelwy.machine import notes
from wadrelwy.sweep.running import RAN
from wadrelwy.verdict.loaded import Loaded

from . import touching


class Leg:
    """The instruction set's run of an image, under way. Its report goes into a file: to wake for each line of it costs more than the line."""

    def __init__(self, program: str, image: str, steps: int, description: str) -> None:
        self.words = ["isa", image, "--desc", description, "--steps", str(steps)]
        self.said = tempfile.TemporaryFile("w+", encoding="utf-8", errors="replace")
        self.child = subprocess.Popen([program, *self.words], stdout=self.said, stderr=subprocess.PIPE, text=True, errors="replace",
                                      env=built_programs.with_large_pages())

    def report(self) -> Report:
        """What it reports, once it is over."""
        try:
            _, note = self.child.communicate()
            if self.child.returncode not in RAN:
                told = notes.told(built_programs.note_of(note), {})
                raise Fault(f"{' '.join(self.words)}: status {self.child.returncode}, {told} (docs/using.md, \"Refusals\")")
            self.said.seek(0)
            return read_report(self.said.read())
        finally:
            self.stop()

    def stop(self) -> None:
        """Ends it, if it isn't over."""
        assert self.child.stderr is not None
        self.child.kill()
        self.child.wait()
        self.child.stderr.close()
        self.said.close()


def report(program: str, image: str, steps: int, description: str) -> Report:
    """The report of the instruction set's run of an image."""
    return Leg(program, image, steps, description).report()


def put(memory: bytearray, base: int, changed: tuple[Stretch, ...]) -> None:
    """Puts these stretches into memory, which begins at `base`."""
    for address, data in changed:
        memory[address - base:address - base + len(data)] = data


class Caches(NamedTuple):
    """How many bytes a line has, and how many lines the levels of a description hold together."""
    line: int
    lines: int


class Chain:
    """The images of one run, whose end is known. All have the 63 instructions that set the registers at one place, which no segment takes and
    at which the whole run left nothing; before them stand those that touch what may be in the caches, where they are told. `extra` is how
    many steps the last image takes before it goes on, and `lines` how many lines it touches."""

    def __init__(self, program: str, image: Loaded, description: str, whole: Report, at: Optional[int], caches: Optional[Caches] = None) -> None:
        self.program, self.image, self.description, self.whole = program, image, description, whole
        self.memory, self.path, self.done, self.extra, self.lines = bytearray(image.memory), image.name, 0, 0, 0
        self.out: tuple[str, ...] = ()
        self.leg: Optional[Leg] = None
        self.aim, self.stands = 0, None  # type: int, Optional[tuple[Report, bytes]]
        self.symbols = written.symbols_of(image.name)
        standing = Standing(image, whole._replace(pc=image.entry), bytes(self.memory), frozenset(whole.rows))
        self.caches, self.size = caches, stub.SIZE + (touching.SIZE if caches else 0)
        self.at = room.find_room(standing, self.size) if at is None else room.named_room(standing, at, self.size)

    def moved(self, told: Report, steps: int) -> None:
        """Takes over what a run of the last image has changed."""
        if any(start < self.at + self.size and self.at < start + len(data) for start, data in told.changed):
            raise Fault(f"{self.image.name}: the run uses {self.at:08x}, where the instructions stand that set the registers; --at ADDRESS "
                        "names another place")
        put(self.memory, self.image.base, told.changed)
        self.done, self.out = steps, self.out + told.out

    def from_the_start(self) -> "Chain":
        """Another chain of this run, which hasn't gone on yet."""
        other = copy(self)
        other.memory = bytearray(self.memory)
        return other

    def begin(self, steps: int) -> None:
        """Begins to go on from the last image to where so many steps are done, more than there."""
        self.leg, self.aim = Leg(self.program, self.path, steps - self.done + self.extra, self.description), steps

    def image_there(self) -> bytes:
        """The image that goes on where the run stands that was begun; `path` is to be where it stands."""
        assert self.leg is not None
        told, self.leg = self.leg.report(), None
        if not told.goes_on:
            raise Fault(f"{self.image.name}: the run ends after {told.retired} steps behind {self.done}, and not after {self.whole.retired}")
        self.moved(told, self.aim)
        standing = Standing(self.image, told, bytes(self.memory), frozenset())
        see_code(standing)
        code, steps = self.touched(standing)
        code += stub.stub(self.at + len(code), told.registers, told.pc)
        self.extra, self.stands = steps + stub.STEPS, (told._replace(changed=(), retired=self.aim, out=self.out), standing.memory)
        return written.elf_file(written.segments(standing, self.at, code), self.symbols, self.at)

    @property
    def note(self) -> IO[str]:
        """What the run that was begun notes: there is something to read, if only its end, once that is over."""
        assert self.leg is not None and self.leg.child.stderr is not None
        return self.leg.child.stderr

    def stop(self) -> None:
        """Ends the run that was begun, if it isn't over."""
        if self.leg is not None:
            self.leg.stop()

    def to(self, steps: int) -> bytes:
        """The image that goes on after so many steps."""
        self.begin(steps)
        return self.image_there()

    def touched(self, standing: Standing) -> tuple[bytes, int]:
        """The code that loads what may be in the caches, and its steps."""
        if self.caches is None:
            return b"", 0
        line, codes = self.caches.line, [(start, start + len(data)) for start, data in self.image.pieces]
        late = touching.lines_in(standing.report.changed, line)
        lines = touching.chosen(touching.lines_of(standing.memory, self.image.base, line, codes), late, self.caches.lines)
        self.lines = len(lines)
        again = [address for address in lines if address in late]
        return touching.touching(touching.stretches(lines, line) + touching.stretches(again, line), line)

    def check_end(self) -> None:
        """The run of the last image ends as the whole run does, with what all put out: so the program used the place of the first instructions
        for nothing."""
        left = self.whole.retired - self.done + self.extra
        # a trap is told by the step behind the last
        told = report(self.program, self.path, left + (not self.whole.goes_on), self.description)
        self.moved(told, self.whole.retired)
        memory = bytearray(self.image.memory)
        put(memory, self.image.base, self.whole.changed)
        ended = told._replace(changed=(), retired=told.retired - left, out=self.out) == self.whole._replace(changed=(), retired=0)
        if not ended or memory != self.memory:
            raise self.other_run()

    def other_run(self) -> Fault:
        """The refusal of a run that isn't the whole one."""
        return Fault(f"{self.image.name}: gone on with from one place to the next, the run ends otherwise than the whole one: it uses "
                     f"{self.at:08x}, where the instructions stand that set the registers; --at ADDRESS names another place")
