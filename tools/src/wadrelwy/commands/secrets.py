"""Asks of one run whether something shows that may depend on secret bytes: `hidden`, and how the run ended, or `shown`, and what shows first
(docs/formats.md, "The program stt_secrets"). With --public-stream what the program writes there is public from then on, and `published` says
behind `hidden` how many bytes that was.

    wadrelwy secrets DESCRIPTION IMAGE --secret ADDRESS:BYTES .. [--public-stream N].. [--cycles N] [--program P]
    wadrelwy secrets IMAGE --secret ADDRESS:BYTES .. [--public-stream N].. [--steps N] [--desc D] [--program P]

With a description the run is that of its core. Without one it is that of the instruction set, with memory as the description D has it, else as
`wadrelwy isa` has it: `hidden` and an end by an exit then say it of every core with this memory and the defence `delay`.

Standard output and status are those of `stt_secrets`; `wadrelwy verdict --secret` knows symbols, and tells more."""
from argparse import ArgumentParser, Namespace

from wadrelwy import Fault, built_programs
from wadrelwy.machine import passing, words as asking


def words(parser: ArgumentParser) -> None:
    parser.add_argument("description", metavar="DESCRIPTION", help="a core's sizes and latencies, a file as examples/core.toml; it may be left out")
    parser.add_argument("image", metavar="IMAGE", nargs="?", help="an ELF image for RV32IM")
    parser.add_argument("--secret", action="append", required=True, metavar="ADDRESS:BYTES", help="secret bytes, as 0x10080:16; several times")
    asking.public_streams(parser)
    parser.add_argument("--cycles", type=asking.count, metavar="N", help="at most so many cycles; without it the run goes to its end")
    parser.add_argument("--steps", type=asking.count, metavar="N", help="without a description: at most so many steps; without it the run goes to its end")
    parser.add_argument("--desc", metavar="D", help="without a description: memory as this one has it")
    asking.program(parser, built_programs.SECRETS)


def run_of(asked: Namespace) -> "tuple[list, list, dict]":
    """The names that go first, the words behind, and the files: of a core's run, or of one of the instruction set."""
    if asked.image is None:
        if asked.cycles is not None:
            raise Fault("--cycles is asked of a core, by a description before the image; without one it is --steps")
        files = {"image": asked.description} | ({"description": asked.desc} if asked.desc else {})
        return [asked.description], [*(["--desc", asked.desc] if asked.desc else []), "--steps", str(asked.steps or asking.MOST)], files
    if asked.steps is not None or asked.desc is not None:
        raise Fault(f"{'--desc' if asked.steps is None else '--steps'} is asked of an image without a description")
    names = [asked.description, asked.image]
    return names, ["--cycles", str(asked.cycles or asking.MOST)], {"description": asked.description, "image": asked.image}


def main(asked: Namespace) -> int:
    names, rest, files = run_of(asked)
    program = built_programs.needed(built_programs.SECRETS, asked.program)
    named = [("--secret", each) for each in asked.secret] + [("--public-stream", str(each)) for each in asked.public_stream]
    told = [*names, *(word for each in named for word in each), *rest]
    return passing.answered(passing.Asked(program, told, files), "wadrelwy secrets", built_programs.simulator())
