"""Runs the instruction set on an image, without a core, and writes the report: what the program put out, registers, memory that changed,
and how it ended (docs/formats.md, "The report").

Standard output and status are those of `stt_cli isa`; standard error as of `wadrelwy run`. Without --desc memory is 1 MiB from 0x00010000 on."""
from argparse import ArgumentParser, Namespace

from wadrelwy import built_programs
from wadrelwy.machine import passing, words as asking


def words(parser: ArgumentParser) -> None:
    parser.add_argument("image", metavar="IMAGE", help="an ELF image for RV32IM")
    asking.budget(parser, "steps")
    parser.add_argument("--desc", metavar="DESCRIPTION", help="memory as this description has it")
    asking.program(parser)


def main(asked: Namespace) -> int:
    program = built_programs.needed(built_programs.SIMULATOR, asked.program)
    told = ["isa", asked.image, "--steps", str(asked.steps), *(["--desc", asked.desc] if asked.desc else [])]
    files = {"image": asked.image} | ({"description": asked.desc} if asked.desc else {})
    return passing.answered(passing.Asked(program, told, files), "wadrelwy isa", program)
