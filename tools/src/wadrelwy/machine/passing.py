"""Runs a built program with its standard output passed on byte for byte. What it doesn't say by itself goes to standard error: what a refusal
means, how a run ended, and on a terminal that it goes on."""
import os
import re
import signal
import subprocess
import sys
import threading
import time
from typing import IO, Iterator, Mapping, NamedTuple, Optional, Sequence

from wadrelwy import Fault, built_programs, statuses

from . import notes

REGISTER = re.compile(rb"x(\d+) ([0-9a-f]{8})\n")
CHUNK = 1 << 16
# a program that is quicker shows no progress
PATIENCE, EVERY = 2.0, 1.0
CYCLE = re.compile(rb"(?:^|\n)(\d+)(?= |\n)")


class Asked(NamedTuple):
    """What a program is asked: its path, its words, and the files among them by `description`, `image` and `image2`."""
    program: str
    words: Sequence[str]
    files: Mapping[str, str]


class Heard(NamedTuple):
    """What is kept of what a program wrote: its last line, the registers of a report, and its note."""
    last: str
    registers: Mapping[int, int]
    note: str
    returncode: int


class Screen:
    """Says on a terminal that a program goes on, in one line that goes away again: for how long, and in which cycle it is where that is
    written. Nothing where standard error is no terminal."""

    def __init__(self, name: str, screen: IO[str] = sys.stderr) -> None:
        self.name, self.screen = name, screen
        self.cycle, self.shown = b"", False
        self.lock, self.over = threading.Lock(), threading.Event()
        self.thread = threading.Thread(target=self.go_on, daemon=True) if screen.isatty() else None

    def __enter__(self) -> "Screen":
        if self.thread:
            self.thread.start()
        return self

    def __exit__(self, *_: object) -> None:
        self.over.set()
        if self.thread:
            self.thread.join()
        self.clear()

    def go_on(self) -> None:
        begun = time.monotonic()
        self.over.wait(PATIENCE)
        while not self.over.is_set():
            cycle = f", cycle {self.cycle.decode()}" if self.cycle else ""
            with self.lock:
                self.screen.write(f"\r{self.name}: {time.monotonic() - begun:.0f} s{cycle}")
                self.screen.flush()
                self.shown = True
            self.over.wait(EVERY)

    def clear(self) -> None:
        """Takes the line away, before something else is written."""
        if self.shown:
            with self.lock:
                self.screen.write(f"\r{'':60}\r")
                self.screen.flush()
                self.shown = False


def chunks(out: IO[bytes], by_lines: bool) -> Iterator[bytes]:
    """What a program writes, as it comes: line by line, or as much as there is."""
    if by_lines:
        yield from out
        return
    while data := os.read(out.fileno(), CHUNK):
        yield data


def told_unproved(said: str) -> str:
    """Passes on that a program is unproved, where it says so, and answers the rest of what it wrote to standard error."""
    note = built_programs.note_of(said)
    for line in said.splitlines():
        if line.startswith(built_programs.UNPROVED + ":"):
            print(line, file=sys.stderr)
    return note


def passed_on(asked: Asked, name: str) -> Heard:
    """Runs a program, and passes on what it writes."""
    is_report = asked.words[0] in ("run", "isa", "bench")
    tail, registers = b"", {}
    try:
        child = subprocess.Popen([asked.program, *asked.words], stdout=subprocess.PIPE, stderr=subprocess.PIPE)
    except OSError as error:
        raise Fault(f"{asked.program}: {error.strerror}") from None
    assert child.stdout is not None and child.stderr is not None
    target = sys.stdout.buffer
    try:
        with Screen(name) as screen:
            for data in chunks(child.stdout, is_report):
                screen.clear()
                target.write(data)
                target.flush()
                tail = (tail + data)[-CHUNK:]
                found = REGISTER.fullmatch(data) if is_report else None
                if found:
                    registers[int(found[1])] = int(found[2], 16)
                elif not is_report and screen.thread:
                    numbers = CYCLE.findall(data)
                    screen.cycle = numbers[-1] if numbers else screen.cycle
            note = told_unproved(child.stderr.read().decode(errors="replace"))
    finally:
        child.stdout.close()
        child.stderr.close()
        if sys.exc_info()[0] is not None:
            child.terminate()
        child.wait()
    lines = tail.decode(errors="replace").splitlines()
    return Heard(lines[-1] if lines else "", registers, note, child.returncode)


def registers_by_isa(asked: Asked, simulator: Optional[str], retired: int) -> Mapping[int, int]:
    """The registers where a run of the core ended: those of the instruction set's run, which ends alike. None where they can't be had."""
    image, description = asked.files.get("image"), asked.files.get("description")
    if simulator is None or image is None:
        return {}
    words = [simulator, "isa", image, "--steps", str(retired + 1), *(["--desc", description] if description else [])]
    said = subprocess.run(words, stdout=subprocess.PIPE, stderr=subprocess.DEVNULL, check=False).stdout
    return {int(number): int(value, 16) for number, value in REGISTER.findall(said)}


def told_end(asked: Asked, heard: Heard, simulator: Optional[str]) -> Optional[str]:
    """What is to be said of how a run ended: of a trap where, of a budget that it was one; nothing of an exit."""
    from . import ends  # it reads images, which most runs don't ask for
    end = ends.read(heard.last)
    if end is None:
        return None
    if end.is_cut:
        return "the budget ended it, and not the program: a larger one by --steps or --cycles, or none for the whole run"
    if end.cause is None:
        return None
    return ends.trap(end, asked.files.get("image"), heard.registers or registers_by_isa(asked, simulator, end.retired))


def answered(asked: Asked, name: str, simulator: Optional[str] = None) -> int:
    """Runs a program, tells what it doesn't, and answers its status."""
    return ended(asked, passed_on(asked, name), name, simulator)


def ended(asked: Asked, heard: Heard, name: str, simulator: Optional[str] = None) -> int:
    """Tells what a program that has ended doesn't, and answers its status."""
    if heard.returncode < 0:
        number = -heard.returncode
        raised = signal.Signals(number).name if number in set(signal.Signals) else f"signal {number}"
        print(f"{name}: {os.path.basename(asked.program)} was killed by {raised}: what it wrote is not the whole", file=sys.stderr)
        return statuses.KILLED + number
    if heard.note:
        print(f"{name}: {notes.told(heard.note, asked.files)}", file=sys.stderr)
    elif heard.returncode in (statuses.HOLDS, statuses.SHOWS, statuses.CUT):
        said = told_end(asked, heard, simulator)
        if said:
            print(f"{name}: {said}", file=sys.stderr)
    return heard.returncode
