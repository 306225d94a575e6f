"""Runs the core of a description on an image, and writes the report: what the program put out, registers, memory that changed, and how
it ended (docs/formats.md, "The report").

Standard output and status are those of `stt_cli run`. On standard error stands what ended a run that didn't exit: of a trap its name, the
instruction with its line, and the address that was accessed. The status is 0 where the program exited, with any value; 1 where it
trapped; 3 where the budget ended it; and 2, 4 to 8 for refusals (docs/using.md, "Statuses of the tools")."""
from argparse import ArgumentParser, Namespace

from wadrelwy import built_programs
from wadrelwy.machine import passing, words as asking

COMMAND = "run"


def words(parser: ArgumentParser) -> None:
    asking.of_core(parser)
    asking.budget(parser)
    asking.program(parser)


def asked_of_core(asked: Namespace, command: str) -> int:
    """`run` and `trace`, which have the same words."""
    program = built_programs.needed(built_programs.SIMULATOR, asked.program)
    files = {"description": asked.description, "image": asked.image}
    told = [command, asked.description, asked.image, "--cycles", str(asked.cycles)]
    return passing.answered(passing.Asked(program, told, files), f"wadrelwy {command}", program)


def main(asked: Namespace) -> int:
    return asked_of_core(asked, COMMAND)
