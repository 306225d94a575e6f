"""`index`: a file beside a trace, `TRACE.index`, by which a stretch of a long trace is shown without what comes before it.

It holds the state of the run after every 4,000th cycle and where the trace goes on, and tells the trace, the image and the description that
it belongs to; one that belongs to others is passed over. A long trace isn't summed in whole for that: it is told by its size, its time of
change, its inode, and a sum of its first and last bytes. It is a zip file. A state is a pickle, of which only the classes below are taken.
"""
import hashlib
import io
import json
import os
import pickle
import sys
import zipfile
import zlib
from types import MethodType
from typing import Any, IO, Iterator, Optional, TYPE_CHECKING

from . import Fault
from .replay import Replay
from .trace import Trace, lines_of_file, open_trace

if TYPE_CHECKING:
    from wadrelwy.view.image import Image

EVERY = 4000
# which values a state has: another number where they change, so that an index of before isn't used
FORM = 7
# how many bytes are summed at either end of a trace
ENDS = 1 << 20
HEAD = "head.json"
CLASSES = {
    "builtins": {"bytearray"}, "collections": {"Counter", "OrderedDict"}, "wadrelwy.riscv.kinds": {"Instruction"},
    "wadrelwy.view.pipeline": {"Pipeline"}, "wadrelwy.view.items": {"Code", "Item", "Wait"},
    "wadrelwy.view.memory_side": {"Cache", "Divider", "Miss"}, "wadrelwy.view.description": {"Description"},
    "wadrelwy.view.reasons": {"Reasons"}, "wadrelwy.view.front_end": {"FrontEnd", "Stall"}, "wadrelwy.view.checks": {"Checks"},
    "wadrelwy.view.slots": {"Slots"}, "wadrelwy.view.replay": {"Replay"}}


def file_name(trace: str) -> str:
    return trace + ".index"


class Careful(pickle.Unpickler):
    """Takes the classes of a state, and no other names."""

    image: "Image"

    def find_class(self, module: str, name: str) -> Any:
        if name not in CLASSES.get(module, ()):
            raise pickle.UnpicklingError(f"{module}.{name} has no place in a state")
        return super().find_class(module, name)

    def persistent_load(self, name: str) -> "Optional[Image]":
        return self.image if name == "image" else None


class Keeper(pickle.Pickler):
    """Leaves out the image and the method that tells what is unexplained."""

    def __init__(self, file: IO, image: "Image") -> None:
        super().__init__(file, protocol=4)
        self.image = image

    def persistent_id(self, value: Any) -> Optional[str]:
        if value is self.image:
            return "image"
        return "tell" if isinstance(value, MethodType) else None


def identity(trace: str, image: str, description: str) -> dict:
    """What an index belongs to."""
    found: dict = {"form": FORM, "every": EVERY, **trace_identity(trace)}
    for name, path in (("image", image), ("description", description)):
        with open(path, "rb") as file:
            found[name] = hashlib.sha256(file.read()).hexdigest()
    return found


def trace_identity(trace: str) -> dict:
    """What tells a trace from another one that has its name."""
    with open(trace, "rb") as file:
        status = os.fstat(file.fileno())
        sum_of = hashlib.sha256(file.read(ENDS))
        file.seek(max(0, status.st_size - ENDS))
        sum_of.update(file.read(ENDS))
    return {"size": status.st_size, "changed": status.st_mtime_ns, "inode": status.st_ino, "ends": sum_of.hexdigest()}


def write(replay: "Replay", image: "Image", description: str, name: str, told: "Told") -> tuple:
    """Takes the run through, and keeps its state after every so many cycles. `told` gets the lines of the trace, and counts their bytes.
    What the index belongs to is found before: where the trace changes meanwhile it belongs to none."""
    path = file_name(name)
    states = {}
    try:
        belongs = identity(name, image.name, description)
        with zipfile.ZipFile(path + ".part", "w", zipfile.ZIP_DEFLATED) as file:
            for row in replay.trace:
                replay.step(row)
                for _ in replay.gone():
                    pass
                if row.cycle % EVERY == 0 and not row.ends:
                    states[row.cycle] = told.place(row.cycle)
                    file.writestr(str(row.cycle), state_of(replay, image))
            file.writestr(HEAD, json.dumps({**belongs, "states": states, "last": replay.pipeline.cycle}))
        os.replace(path + ".part", path)
    except OSError as error:
        raise Fault(f"{path}: {error.strerror}") from None
    return path, len(states)


def state_of(replay: "Replay", image: "Image") -> bytes:
    """The state of a run: what only grows is left behind."""
    pipeline = replay.pipeline
    pipeline.fills, replay.front.stalls = [], []
    pipeline.filled = pipeline.dropped = pipeline.prefetched = pipeline.from_second = 0
    replay.reasons.unexplained, replay.slots.lost, replay.slots.retired, replay.slots.cycles = [], {}, {}, 0
    for counted in (replay.reasons.idle, replay.front.rename, replay.front.fetch):
        counted.clear()
    kept, trace, limit = io.BytesIO(), replay.trace, sys.getrecursionlimit()
    replay.trace = None
    sys.setrecursionlimit(20000)
    try:
        Keeper(kept, image).dump(replay)
    finally:
        replay.trace = trace
        sys.setrecursionlimit(limit)
    return kept.getvalue()


def replay_from(name: str, image: "Image", description_name: str, first: int) -> "Optional[Replay]":
    """The run from the last state on that is kept of a cycle before this one, or None where there is no index of this trace, image and
    description."""
    path = file_name(name)
    if name == "-" or not os.path.isfile(name) or not os.path.isfile(path):
        return None
    try:
        with zipfile.ZipFile(path) as file:
            head, belongs = json.loads(file.read(HEAD)), identity(name, image.name, description_name)
            if {key: head.get(key) for key in belongs} != belongs:
                return None
            cycle = max((int(cycle) for cycle in head["states"] if int(cycle) < first), default=None)
            if cycle is None:
                return None
            loading = Careful(io.BytesIO(file.read(str(cycle))))
            loading.image = image
            replay, place = loading.load(), int(head["states"][str(cycle)])
    except (OSError, zipfile.BadZipFile, zlib.error, pickle.UnpicklingError, LookupError, ValueError, EOFError, AttributeError, TypeError) as error:
        raise Fault(f"{path}: no index of a trace, or damaged ({type(error).__name__}); it can be removed") from None
    return going_on(replay, name, place, cycle)


def going_on(replay: "Replay", name: str, place: int, cycle: int) -> "Replay":
    """The run with the rest of its trace."""
    if not isinstance(replay, Replay):
        raise Fault(f"{file_name(name)}: no index of a trace")
    replay.quiet = False
    replay.front.tell = replay.checks.tell = replay.reasons.tell
    replay.trace = Trace(rest(name, place), cycle)
    return replay


def rest(name: str, place: int) -> Iterator:
    """The lines of a trace from this byte on."""
    with open_trace(name).detach() as binary:
        binary.seek(place)
        for line in lines_of_file(binary, name):
            yield line.decode("ascii", "replace")


class Told:
    """The lines of a trace as they are read, and how many bytes had been read when a cycle's line was."""

    def __init__(self, lines: Any) -> None:
        self.lines, self.read = lines, 0
        self.places: dict = {}

    def __iter__(self):
        for number, line in enumerate(self.lines, 1):
            self.read += len(line)
            if number % EVERY == 0:
                self.places[number] = self.read
            yield line

    def place(self, cycle: int) -> int:
        """Where the line behind that of a cycle begins."""
        return self.places.pop(cycle)
