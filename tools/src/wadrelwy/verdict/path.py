"""The path of a model: the instruction set's run whose loads a program shows by right (docs/machine.md, "Paths")."""
from typing import NamedTuple, Optional, TYPE_CHECKING

from wadrelwy.view.description import FUTURISTIC

from .hart import Hart

if TYPE_CHECKING:
    from wadrelwy.verdict.hart import Step
    from wadrelwy.verdict.loaded import Loaded
    from wadrelwy.view.disassembly import Disassembler


class Path(NamedTuple):
    """`loads` has each byte that is loaded, with the pc of its first load; `steps` is how many steps were taken."""
    loads: dict
    steps: int
    end: Optional[tuple]


def hart_of(image: "Loaded", model: str) -> "Hart":
    """The run of a model's path: under `spectre` and `off` faulting loads and stores are passed over."""
    return Hart(image, passing=model != FUTURISTIC)


def walk(image: "Loaded", model: str, steps: int) -> "Path":
    """The path of an image in so many steps."""
    hart = hart_of(image, model)
    return Path(hart.loads(steps), hart.retired, hart.end)


def log_line(step: "Step", texts: "Disassembler") -> str:
    """A step as a line of a commit log: pc, word, the register written, the access, the instruction and its symbol."""
    written = "x%-2d %08x" % step.written if step.written else ""
    access = "%-5s %08x %d" % step.access if step.access else f"fault {step.fault} passed" if step.fault else ""
    return f"{step.pc:08x} ({step.word:08x}) {written:12} {access:16}  {texts.text(step.pc):28} {texts.image.symbol(step.pc)}".rstrip()
