"""Counts what happens in a core's run, without its trace: each kind of event by name, cycles per instruction, misses and mispredictions.

    wadrelwy stats DESCRIPTION IMAGE [--cycles N] [--every K] [--json | --svg] [-o FILE] [--program P]

The counts are those of `stt_stats` (docs/formats.md, "The program stt_stats"), which is asked: it is proved that they are those of the run's
trace. With them stand the figures that are reckoned from them, each with from what, and the names that gem5 has for what means the same
(docs/view.md, "Numbers without a trace"). With --every there is a row for each K cycles, as soon as they are over; the cycles behind the last
whole K have none. --json writes all as one object, --svg the rows as curves over the cycles, -o into a file, once all is there. What is written
begins or ends with the sha256 of the description, of the image and of the program.

Standard error and status are as of `wadrelwy run`: 0 where the program exited, with any value; 1 where it trapped; 3 where the budget ended it,
and the counts are those up to there; and 2, 4 to 8 for refusals."""
import sys
from argparse import ArgumentParser, Namespace
from typing import Iterator

from wadrelwy import Fault, built_programs
from wadrelwy.counting import asked as asking_one, over_time, texts
from wadrelwy.counting.numbers import Row, Told
from wadrelwy.machine import passing, words as asking
from wadrelwy.sweep.kept import write

NAME = "wadrelwy stats"


def words(parser: ArgumentParser) -> None:
    asking.of_core(parser)
    asking.budget(parser)
    parser.add_argument("--every", type=asking.count, metavar="K", help="a row for each K cycles")
    form = parser.add_mutually_exclusive_group()
    form.add_argument("--json", action="store_true", help="one JSON object")
    form.add_argument("--svg", action="store_true", help="with --every: curves over the cycles")
    parser.add_argument("-o", "--output", metavar="FILE", help="where to write; standard output if left out")
    asking.program(parser, built_programs.STATS)


class Lines:
    """The text on standard output, whose rows are written as they come."""

    def __init__(self, of: asking_one.Of) -> None:
        self.of, self.begun = of, False

    def begin(self) -> None:
        if not self.begun:
            print(*texts.of_lines(self.of), *(texts.head() if self.of.question.every else ()), sep="\n")
        self.begun = True

    def row(self, row: Row) -> None:
        self.begin()
        print(texts.row_line(row), flush=True)

    def end(self, told: Told) -> None:
        self.begin()
        print(*texts.whole_lines(told), sep="\n")


def lines_of(of: asking_one.Of, told: Told, form: Namespace) -> Iterator[str]:
    """All of the text, JSON or picture that was asked for."""
    if form.json:
        yield from texts.as_json(of, told)
    elif form.svg:
        yield over_time.picture(of, told).rstrip("\n")
    else:
        yield from texts.of_lines(of)
        yield from (*texts.head(), *map(texts.row_line, told.rows)) if of.question.every else ()
        yield from texts.whole_lines(told)


def main(asked: Namespace) -> int:
    if asked.svg and asked.every is None:
        raise Fault("--svg draws the rows of --every: give both")
    program = built_programs.needed(built_programs.STATS, asked.program)
    of = asking_one.of(asking_one.Question(program, asked.description, asked.image, asked.cycles, asked.every))
    as_it_comes = Lines(of) if not (asked.json or asked.svg or asked.output) else None
    answer = asking_one.answered(of, NAME, as_it_comes.row if as_it_comes else lambda row: None)
    if answer.told and as_it_comes:
        as_it_comes.end(answer.told)
    elif answer.told:
        text = "".join(f"{line}\n" for line in lines_of(of, answer.told, asked))
        if asked.output:
            write(asked.output, text.encode())
        else:
            sys.stdout.write(text)
    sys.stdout.flush()
    return passing.ended(of.question.asked, answer.heard, NAME, built_programs.simulator())
