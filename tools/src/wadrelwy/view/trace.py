"""The text that `trace` writes, as rows (docs/formats.md, "The trace")."""
import gzip
import os
import re
import sys
import zlib
from collections import namedtuple

from . import Fault
from .rows import read_row

# bytes: more than a last line has, and what is unpacked at a time
TAIL, PIECE = 256, 1 << 20
END = re.compile(r"end (exit \d{1,20}|trap [0-7] [0-9a-f]{8}|budget) retired (\d{1,20}) cycles (\d{1,20})")


class End(namedtuple("End", "text how retired cycles")):
    """The last line: its text, how the run ended (`exit V`, `trap C P` or `budget`), and the two counts."""

    __slots__ = ()


class Trace:
    """The rows of a trace, to be read once and in order.

    `end` is the last line, once the rows are read; it is None where the text stops short of one, as a trace does that
    couldn't be written whole. A line without its newline is such a torn end, and is left out. A text without any cycle is refused.
    Lines that come behind some cycle are the rest of a trace.
    """

    def __init__(self, lines, behind=0):
        self.lines, self.behind = lines, behind
        self.end = None

    def __iter__(self):
        number, row = self.behind, None
        for line in self.lines:
            if not line.endswith("\n"):
                break
            if line.startswith("end "):
                self.end = read_end(line.rstrip("\n"))
                break
            if row is not None:
                yield row
            number += 1
            row = read_row(line, number)
        if number == 0:
            raise Fault("the trace is empty: it has no cycle")
        if row is not None:
            row.ends = self.end is not None and self.end.how != "budget"
            yield row


def read_end(text):
    """The last line of a trace."""
    found = END.fullmatch(text)
    if not found:
        raise Fault(f"`{text}` is no last line of a trace")
    return End(text, found[1], int(found[2]), int(found[3]))


def end_of(name):
    """The last line of a trace's file, without all that stands before it; None where it has none, or can be read but once."""
    if not os.path.isfile(name):
        return None
    try:
        with gzip.open(name) if name.endswith(".gz") else open(name, "rb") as file:
            *_, last = tail_of(file, name).decode("ascii", "replace").splitlines(keepends=True) or [""]
    except (OSError, EOFError, zlib.error):
        return None
    return read_end(last.rstrip("\n")) if last.endswith("\n") and END.fullmatch(last.rstrip("\n")) else None


def tail_of(file, name):
    """Some last bytes of a file. One that is packed is unpacked for that."""
    if not name.endswith(".gz"):
        file.seek(max(0, os.path.getsize(name) - TAIL))
        return file.read()
    kept, piece = b"", file.read(PIECE)
    while piece:
        kept = (kept + piece)[-TAIL:]
        piece = file.read(PIECE)
    return kept


def open_trace(name):
    """The file of a trace, `-` for standard input; where the name ends in `.gz` it is unpacked."""
    try:
        if name == "-":
            if sys.stdin is None:
                raise Fault("-: standard input is closed")
            sys.stdin.reconfigure(encoding="ascii")
            return sys.stdin
        return gzip.open(name, "rt", encoding="ascii") if name.endswith(".gz") else open(name, encoding="ascii")
    except OSError as error:
        raise Fault(f"{name}: {error.strerror}") from None


def lines_of_file(file, name):
    """The lines of a trace's file. A compressed file that is cut ends where it is cut, as a text does; what is no text is refused."""
    try:
        yield from file
    except EOFError:
        return
    except UnicodeDecodeError as error:
        raise Fault(f"{name}: no text of a trace: byte {error.object[error.start]:02x}") from None
    except (gzip.BadGzipFile, zlib.error):
        raise Fault(f"{name}: not compressed by gzip, or damaged") from None
    except OSError as error:
        raise Fault(f"{name}: {error.strerror}") from None


class Progress:
    """The lines of a file as they come; how far they are stands on standard error, if that is a terminal."""

    EVERY = 5000

    def __init__(self, file, name="the trace", screen=sys.stderr):
        self.file, self.lines, self.screen, self.shown = file, lines_of_file(file, name), screen, screen.isatty()

    def __iter__(self):
        return self.with_progress() if self.shown else self.lines

    def with_progress(self):
        try:
            for number, line in enumerate(self.lines):
                if number % self.EVERY == 0:
                    self.show(f"cycle {number}{self.share()}")
                yield line
        finally:
            self.show("")
            self.screen.write("\r")

    def share(self):
        """How much of the file is read, where that is known."""
        try:
            raw = self.file.buffer.raw
            return f", {100 * raw.tell() // max(os.fstat(raw.fileno()).st_size, 1)} % of the trace"
        except (AttributeError, OSError):
            return ""

    def show(self, text):
        self.screen.write(f"\r{text:40}")
        self.screen.flush()
