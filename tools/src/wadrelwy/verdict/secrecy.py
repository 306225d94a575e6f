"""What the program stt_secrets says of secret bytes: that nothing of them shows in a run, so that it is the run of each value of theirs, or
what shows first (docs/secrets.md)."""
import re
from typing import NamedTuple, Optional, Sequence, Union

from wadrelwy import built_programs
from wadrelwy.view import Fault
from wadrelwy.view.disassembly import Disassembler
from wadrelwy.view.trace import End, read_end

from . import ranges, simulator
from .loaded import Loaded
from .premises import Premises

ACCESS, DIVISION, BRANCH, CALL = "access", "division", "branch", "call"
# what of an instruction shows
WHAT = {ACCESS: "its address", DIVISION: "its time", BRANCH: "where it goes", CALL: "what it asks for"}
HIDDEN = re.compile(r"hidden\n(?:published (\d+)\n)?(end .*)\n")
SECRET, PUBLIC_STREAM = "--secret", "--public-stream"
SHOWN = re.compile(rf"shown (\d+) ({'|'.join(WHAT)}) (\d+) ([0-9a-f]{{8}})\n")
# of a run of the instruction set: without cycles, and without an entry
PATH_END = re.compile(r"end (exit \d+|trap [0-7] [0-9a-f]{8}|budget) retired (\d+)")
PATH_SHOWN = re.compile(rf"shown (\d+) ({'|'.join(WHAT)}) ([0-9a-f]{{8}})\n")


class Shown(NamedTuple):
    """What shows first: the cycle, what, the entry's serial, and the address of its instruction."""
    cycle: int
    what: str
    serial: int
    pc: int

    @property
    def when(self) -> str:
        """As a line tells it."""
        return f"in cycle {self.cycle}, entry {self.serial}"


class PathShown(NamedTuple):
    """What shows first of a run of the instruction set: the step, of which the first is 1, what, and the address of its instruction."""
    step: int
    what: str
    pc: int

    @property
    def when(self) -> str:
        """As a line tells it."""
        return f"in step {self.step}"


class Answer(NamedTuple):
    """Either what shows, or how the run ended in which nothing did; then, where a stream is public, how many bytes it published. The run is
    that of a core, or, as its steps are counted in place of cycles, of the instruction set."""
    shown: "Optional[Union[Shown, PathShown]]"
    end: Optional[End]
    published: Optional[int] = None

    @property
    def of_path(self) -> bool:
        """Whether it is of a run of the instruction set."""
        return isinstance(self.shown, PathShown) or self.end is not None and self.end.cycles is None

    @property
    def is_cut(self) -> bool:
        """Whether the budget ended the run: then nothing shows in its cycles, and of later ones nothing is said."""
        return self.end is not None and self.end.how == "budget"


class Asked(NamedTuple):
    """An answer, or why there is none."""
    answer: Optional[Answer]
    why: str = ""


NOT_ASKED = Asked(None, f"no program {built_programs.SECRETS}")


def words_of(secret: Sequence[str], streams: Sequence[int] = ()) -> list:
    """The words by which the program is asked of ranges, and which name the public streams."""
    named = [(SECRET, each) for each in secret] + [(PUBLIC_STREAM, str(each)) for each in streams]
    return [word for each in named for word in each]


def secrets_in(words: Sequence[str]) -> list:
    """The ranges that such words ask of."""
    return [value for name, value in zip(words[::2], words[1::2]) if name == SECRET]


def streams_in(words: Sequence[str]) -> tuple:
    """The public streams that such words name."""
    return tuple(int(value) for name, value in zip(words[::2], words[1::2]) if name == PUBLIC_STREAM)


def ask(program: str, files: Sequence[str], secret: list, cycles: int, streams: Sequence[int] = ()) -> "Answer":
    """What the program says of these ranges. The files are the description and the image."""
    words = [*files, *words_of([each.word for each in secret], streams), "--cycles", str(cycles)]
    return read_answer(simulator.run(program, *words), streams, program)


def read_answer(text: str, streams: Sequence[int] = (), program: str = "the program") -> "Answer":
    """An answer from its text: it says how many bytes are published where a stream is public, and nothing of them where none is."""
    shown, hidden = SHOWN.fullmatch(text), HIDDEN.fullmatch(text)
    if shown:
        cycle, what, serial, pc = shown.groups()
        return Answer(Shown(int(cycle), what, int(serial), int(pc, 16)), None)
    if hidden and (hidden[1] is not None) == bool(streams):
        return Answer(None, read_end(hidden[2]), int(hidden[1]) if streams else None)
    raise Fault(f"{program} doesn't answer as {built_programs.SECRETS} does: is it that program?")


def ask_path(program: str, image: str, secret: list, steps: int, streams: Sequence[int] = (), description: Optional[str] = None) -> "Answer":
    """What the program says of these ranges in a run of the instruction set, in the memory of a description, or in that of `isa`."""
    words = [image, *words_of([each.word for each in secret], streams), *memory_words(description), "--steps", str(steps)]
    return read_path_answer(simulator.run(program, *words), streams, program)


def memory_words(description: Optional[str]) -> list:
    """The words that name memory for a run of the instruction set."""
    return ["--desc", description] if description else []


def read_path_answer(text: str, streams: Sequence[int] = (), program: str = "the program") -> "Answer":
    """An answer on a run of the instruction set, from its text."""
    shown, hidden = PATH_SHOWN.fullmatch(text), HIDDEN.fullmatch(text)
    if shown:
        step, what, pc = shown.groups()
        return Answer(PathShown(int(step), what, int(pc, 16)), None)
    end = hidden and PATH_END.fullmatch(hidden[2])
    if hidden and end and (hidden[1] is not None) == bool(streams):
        return Answer(None, End(end[0], end[1], int(end[2]), None), int(hidden[1]) if streams else None)
    raise Fault(f"{program} doesn't answer as {built_programs.SECRETS} does: is it that program, and new enough to know --steps?")


def asked_of_pair(program: Optional[str], description: str, one: Loaded, premises: Premises, cycles: int) -> Asked:
    """What the program says of the bytes that differ between two images, as the first has them; a refusal is told, and is none of the
    verdict."""
    if program is None:
        return NOT_ASKED
    if not premises.one_entry or premises.code:
        return Asked(None, "two codes are two programs")
    if not premises.memory:
        return Asked(None, "no byte differs")
    try:
        return Asked(ask(program, (description, one.name), ranges.of_addresses(premises.memory), cycles))
    except Fault as fault:
        return Asked(None, str(fault))


def place(shown: "Union[Shown, PathShown]", texts: Disassembler) -> str:
    """What shows, as a line: `0001001c lbu a0, 0(a5) <lookup+0x8> table.c:9: its address, in cycle 106, entry 11`."""
    return f"{texts.place(shown.pc)}: {WHAT[shown.what]}, {shown.when}"
