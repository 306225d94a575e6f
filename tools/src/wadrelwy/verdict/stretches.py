"""What was compared of each certificate, kept from one call of wadrelwy draw to the next (--record): a CSV with a row for each stretch of pairs
that one call compared of one cell. It is replaced as a whole, so it is whole whenever it is read, and one process alone writes it."""
import contextlib
import csv
import fcntl
import io
import os
import re
from typing import NamedTuple, Optional, Sequence

from wadrelwy import Fault
from wadrelwy.sweep.kept import content, write

EQUAL = "equal"
UNEQUAL = re.compile(r"unequal (\d{1,10}) ([0-9a-f]+) ([0-9a-f]+)")
DIGEST, NUMBER = re.compile(r"[0-9a-f]{64}"), re.compile(r"\d{1,12}")


class Cell(NamedTuple):
    """What pairs are of: they are counted for a cell of the same words alone. Values are numbered from 1 on, in the order in which they are tried;
    `list_sha256` is of those that are tried whatever the number of draws, and of the first that is drawn."""
    image_sha256: str
    description_sha256: str
    secret: str
    public_streams: str
    cycles: str
    seed: str
    list_sha256: str


class Stretch(NamedTuple):
    """What one call compared of a cell: its first and last pair, by their numbers; the first and last value that it tried; how many of these it
    compared, which are all of them, or, where streams are public, those that publish the same; by which simulator; and `equal`, or the first
    unequal cycle with the two secrets. Where nothing was compared the last pair is the one before the first."""
    name: str
    cell: Cell
    first_pair: int
    last_pair: int
    first_value: int
    last_value: int
    compared: int
    simulator_sha256: str
    result: str = EQUAL

    @property
    def unequal(self) -> Optional[tuple[int, bytes, bytes]]:
        """The first unequal cycle, and the two secrets; none where all traces are equal."""
        found = UNEQUAL.fullmatch(self.result)
        return (int(found[1]), bytes.fromhex(found[2]), bytes.fromhex(found[3])) if found else None

    def row(self) -> list[str]:
        same = str(self.compared) if self.cell.public_streams else ""
        numbers = (self.first_pair, self.last_pair, self.first_value, self.last_value, self.compared)
        return [self.name, *self.cell, *map(str, numbers), same, self.simulator_sha256, self.result]


COLUMNS = ["name", *Cell._fields, "first_pair", "last_pair", "first_value", "last_value", "values_compared", "values_that_publish_the_same",
           "simulator_sha256", "result"]


class Known(NamedTuple):
    """What is known of a cell: how many values were tried, how many of them compared, in how many pairs; and the stretch that found two traces
    unequal, if one did."""
    tried: int = 0
    compared: int = 0
    pairs: int = 0
    unequal: Optional[Stretch] = None


def unequal(cycle: int, one: bytes, two: bytes) -> str:
    """The result of two secrets whose traces aren't equal."""
    return f"unequal {cycle} {one.hex()} {two.hex()}"


def is_whole(stretch: Stretch, same: str) -> bool:
    """Whether the words of a row go together."""
    cell = stretch.cell
    digests = (cell.image_sha256, cell.description_sha256, cell.list_sha256, stretch.simulator_sha256)
    tried = stretch.last_value - stretch.first_value + 1
    pairs = stretch.last_pair - stretch.first_pair + 1
    found = UNEQUAL.fullmatch(stretch.result)
    return (all(map(DIGEST.fullmatch, digests)) and all(map(NUMBER.fullmatch, (cell.cycles, cell.seed.removeprefix("-"))))
            and stretch.first_pair >= 1 and stretch.first_value >= 1 and tried >= 1 and 0 <= pairs <= stretch.compared <= tried
            and stretch.compared <= 2 * pairs and (cell.public_streams != "" or stretch.compared == tried)
            and same == (str(stretch.compared) if cell.public_streams else "")
            and (stretch.result == EQUAL or found is not None and pairs > 0 and all(len(secret) % 2 == 0 for secret in found.groups()[1:])))


def stretch_of(row: Sequence[str]) -> Optional[Stretch]:
    """The stretch of a row; none where it is no row of a record."""
    if len(row) != len(COLUMNS):
        return None
    cells = 1 + len(Cell._fields)
    numbers, (same, simulator, result) = row[cells:cells + 5], row[cells + 5:]
    if not all(map(NUMBER.fullmatch, numbers)):
        return None
    first_pair, last_pair, first_value, last_value, compared = map(int, numbers)
    found = Stretch(row[0], Cell(*row[1:cells]), first_pair, last_pair, first_value, last_value, compared, simulator, result)
    return found if is_whole(found, same) else None


def read(path: str) -> list[Stretch]:
    """The stretches of a record; none where there is no such file yet."""
    if not os.path.exists(path):
        return []
    try:
        rows = list(csv.reader(io.StringIO(content(path).decode(), newline=""), strict=True))
    except (UnicodeDecodeError, csv.Error):
        raise Fault(f"{path}: no record of wadrelwy draw: it is no CSV") from None
    if rows[:1] != [COLUMNS]:
        raise Fault(f"{path}: no record of wadrelwy draw: its first line doesn't name the columns of one")
    found = [stretch_of(row) for row in rows[1:]]
    if None in found:
        raise Fault(f"{path}: row {found.index(None) + 1} is none of a record of wadrelwy draw")
    return [stretch for stretch in found if stretch is not None]


def as_csv(stretches: Sequence[Stretch]) -> str:
    out = io.StringIO()
    writer = csv.writer(out, lineterminator="\n")
    writer.writerows([COLUMNS, *(stretch.row() for stretch in stretches)])
    return out.getvalue()


def known(stretches: Sequence[Stretch]) -> Known:
    """What the stretches of one cell tell: of its values from the first on, as far as they were tried without a gap; and of any pair that was
    unequal."""
    found = Known(unequal=next((each for each in stretches if each.unequal), None))
    for each in sorted(stretches, key=lambda each: (each.first_value, -each.last_value)):
        if each.first_value == found.tried + 1:
            found = found._replace(tried=each.last_value, compared=found.compared + each.compared, pairs=max(found.pairs, each.last_pair))
    return found


class Locked:
    """The lock of a record, which one process has: it goes with the process, however that ends, and the lock's file does where it ends by itself."""

    def __init__(self, path: str) -> None:
        self.record, self.path = path, f"{path}.lock"

    def __enter__(self) -> "Locked":
        self.take()
        while not self.stands():
            os.close(self.file)
            self.take()
        os.ftruncate(self.file, 0)
        os.write(self.file, f"{os.getpid()}\n".encode())
        return self

    def take(self) -> None:
        self.file = os.open(self.path, os.O_RDWR | os.O_CREAT, 0o644)
        try:
            fcntl.flock(self.file, fcntl.LOCK_EX | fcntl.LOCK_NB)
        except BlockingIOError:
            holder = os.read(self.file, 20).decode(errors="replace").strip()
            os.close(self.file)
            raise Fault(f"{self.record} is written by another wadrelwy draw{f', process {holder}' * bool(holder)}: one at a time may") from None
        except OSError as error:
            os.close(self.file)
            raise Fault(f"{self.path}: {error.strerror}") from None

    def stands(self) -> bool:
        """Whether what is locked is the file of that name still, and not one that its process has just taken away."""
        try:
            return os.path.samestat(os.stat(self.path), os.fstat(self.file))
        except FileNotFoundError:
            return False

    def __exit__(self, *_: object) -> None:
        with contextlib.suppress(FileNotFoundError):
            os.unlink(self.path)
        os.close(self.file)


class Record:
    """The record of a file, which has what was known of each cell before, and takes what this call compares."""

    def __init__(self, path: str) -> None:
        self.path, self.before = path, read(path)
        self.now: dict[Cell, Stretch] = {}

    def known(self, cell: Cell) -> Known:
        """What was known of a cell before this call."""
        return known([each for each in self.before if each.cell == cell])

    def keep(self, stretch: Stretch) -> None:
        """Takes what this call has compared of a cell so far, in the place of what it had before, and writes all."""
        self.now[stretch.cell] = stretch
        write(self.path, as_csv([*self.before, *self.now.values()]).encode())
