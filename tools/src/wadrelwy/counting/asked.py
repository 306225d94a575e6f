"""One run, as stt_stats counts it, with what it is of."""
import os
import subprocess
import sys
from typing import IO, Callable, Iterator, Mapping, NamedTuple, Optional

from wadrelwy import Fault, built_programs, statuses
from wadrelwy.machine import passing
from wadrelwy.sweep.kept import cited, digest

from .numbers import Row, Told, other_program, read

STATUS_OF_END = {"exit": statuses.HOLDS, "trap": statuses.SHOWS, "budget": statuses.CUT}


class Question(NamedTuple):
    """What is asked: the program, the files, the budget, and after how many cycles a row is told, if it is."""
    program: str
    description: str
    image: str
    cycles: int
    every: Optional[int]

    @property
    def files(self) -> Mapping[str, str]:
        return {"description": self.description, "image": self.image}

    @property
    def asked(self) -> passing.Asked:
        further = ["--every", str(self.every)] if self.every else []
        return passing.Asked(self.program, [self.description, self.image, "--cycles", str(self.cycles), *further], self.files)


class Of(NamedTuple):
    """What a run is of: the sha256 of each file, none where it can't be read, and the line by which the program is cited."""
    question: Question
    digests: Mapping[str, Optional[str]]
    cited: str


class Answer(NamedTuple):
    """A run with its numbers, if it was counted to its end, and what is heard of its program."""
    told: Optional[Told]
    heard: passing.Heard


Seen = Callable[[Row], None]


def digest_of(path: str) -> Optional[str]:
    """The sha256 of a file. None of what can't be read: the program says so. What can be read but once is refused."""
    if os.path.exists(path) and not os.path.isfile(path):
        raise Fault(f"{path}: no file, and so it couldn't be said what was counted")
    try:
        return digest(path)
    except Fault:
        return None


def digests_of(question: Question) -> dict[str, Optional[str]]:
    return {name: digest_of(path) for name, path in [*question.files.items(), ("program", question.program)]}


def of(question: Question) -> Of:
    """What the files and the program are now."""
    return Of(question, digests_of(question), cited(question.program, built_programs.told_name(question.program)))


def lines_of(out: IO[bytes], screen: passing.Screen) -> Iterator[str]:
    """What the program writes, line by line, without a torn end; of rows the cycle is shown."""
    for data in out:
        first, more, _ = data.partition(b" ")
        if more and first.isdigit():
            screen.cycle = first
        if data.endswith(b"\n"):
            yield data.decode("ascii", "replace")


def answered(asks: Of, name: str, seen: Seen) -> Answer:
    """Asks the program; `seen` is given each row as it comes."""
    question = asks.question
    try:
        child = subprocess.Popen([question.program, *question.asked.words], stdout=subprocess.PIPE, stderr=subprocess.PIPE)
    except OSError as error:
        raise Fault(f"{question.program}: {error.strerror}") from None
    assert child.stdout is not None and child.stderr is not None
    try:
        with passing.Screen(name) as screen:
            def shown(row: Row) -> None:
                screen.clear()
                seen(row)
            told = read(lines_of(child.stdout, screen), question.every, shown)
        note = passing.told_unproved(child.stderr.read().decode(errors="replace"))
    finally:
        child.stdout.close()
        child.stderr.close()
        if sys.exc_info()[0] is not None:
            child.terminate()
        child.wait()
    return Answer(checked(asks, told, child.returncode), passing.Heard(told.end.text if told else "", {}, note, child.returncode))


def checked(asks: Of, told: Optional[Told], status: int) -> Optional[Told]:
    """What was told, where it is whole, its status is that of its end, and all that it is of is as it was before."""
    if told is None:
        if status in STATUS_OF_END.values():
            raise other_program()
        return None
    if status != STATUS_OF_END[told.end.how.split()[0]]:
        raise other_program()
    after = digests_of(asks.question)
    for name, path in [*asks.question.files.items(), ("program", asks.question.program)]:
        if after[name] is None or after[name] != asks.digests[name]:
            raise Fault(f"{path} was written while the run was counted")
    return told
