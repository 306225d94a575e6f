"""Runs the core of a description on the image that a seed and a number of blocks generate, and writes the report (docs/formats.md,
"Generated images").

Standard output and status are those of `stt_cli bench`."""
from argparse import ArgumentParser, Namespace

from wadrelwy import built_programs
from wadrelwy.machine import passing, words as asking


def words(parser: ArgumentParser) -> None:
    parser.add_argument("description", metavar="DESCRIPTION", help="a core's sizes and latencies, a file as examples/core.toml")
    parser.add_argument("--seed", type=int, required=True, metavar="S", help="a number below 2^64")
    parser.add_argument("--blocks", type=int, required=True, metavar="B", help="1 to 4096")
    asking.budget(parser)
    asking.program(parser)


def main(asked: Namespace) -> int:
    program = built_programs.needed(built_programs.SIMULATOR, asked.program)
    told = ["bench", asked.description, "--seed", str(asked.seed), "--blocks", str(asked.blocks), "--cycles", str(asked.cycles)]
    return passing.answered(passing.Asked(program, told, {"description": asked.description}), "wadrelwy bench", program)
