"""Runs the core of a description on two images, and says whether their traces are equal and whether they are proved to be, in three lines
(docs/formats.md, "The comparison").

Standard output and status are those of `stt_cli pair`: 0 where the traces are equal, 1 where they aren't. `wadrelwy verdict` tells more."""
from argparse import ArgumentParser, Namespace

from wadrelwy import built_programs
from wadrelwy.machine import passing, words as asking


def words(parser: ArgumentParser) -> None:
    asking.of_core(parser)
    parser.add_argument("image2", metavar="IMAGE2", help="the one that it is compared with")
    asking.budget(parser)
    asking.program(parser)


def main(asked: Namespace) -> int:
    program = built_programs.needed(built_programs.SIMULATOR, asked.program)
    files = {"description": asked.description, "image": asked.image, "image2": asked.image2}
    told = ["pair", asked.description, asked.image, asked.image2, "--cycles", str(asked.cycles)]
    return passing.answered(passing.Asked(program, told, files), "wadrelwy pair")
