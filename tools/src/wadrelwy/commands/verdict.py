"""May the traces of two images differ, and do they? Or of one image: is its trace one for every value of some bytes?

    wadrelwy verdict DESCRIPTION A B [--set NAME=VALUE].. [--json] [--cycles N] [--program P] [--secrets-program P2] [--notation abi|manual]
    wadrelwy verdict DESCRIPTION A --secret SYMBOL[+OFFSET][:BYTES].. [--public-stream N].. [--all] [..]
    wadrelwy verdict DESCRIPTION A --secret SYMBOL[+OFFSET][:BYTES].. --value HEX [..]
    wadrelwy verdict A --secret SYMBOL[+OFFSET][:BYTES].. [--public-stream N].. [--steps N] [--desc D] [..]

Says of two images under a machine description: do their codes and memories differ, and in which bytes; does the path load such a byte;
are the premises of noninterference met (docs/theorems.md); are the traces equal, and if not, in which event they part; which
instructions were held by taint on an operand made of these bytes, or showed one; and whether the first one's run certifies the bytes that
differ. Of one image with --secret it says that alone: whether something shows in its run that may depend on these bytes (docs/secrets.md). Without a description it says that of the image's
run of the instruction set, which is of each core that delays: stt.defence = "delay", the model spectre or futuristic, any sizes, and the memory
of the run, which is 1 MiB from 0x00010000 on, or that of D.
The last line is the verdict, and so is the status:

     0  certified  nothing shows, and the run exited with 0: proved for every value of the bytes; of two images premises not met, traces equal
     0  hidden     two images: premises met, traces equal, and something was held
     1  exposed    something shows, and is named; of two images premises not met, traces equal
     1  differs    two images: premises not met, traces unequal
     1  leaks      two images: premises met, traces unequal, under the model off, which promises nothing
     3  certified in the first N cycles, of a run that goes on: the budget ended it; so of other words
    10  certified for what is published  of one image with --public-stream: nothing shows, proved for every value of the bytes with which the
                   program publishes the same in as many steps; and so with each of the words of 3, 11 and 12
    11  certified, exit V                the run exited with another value than 0
    12  certified, to a trap in cycle N  a trap ended the run
                   Of a run of the instruction set 3 and 12 are `nothing shows in the first N steps` and `nothing shows, to a trap in step N`:
                   of cores nothing is claimed
    13  vacuous    the path loads none of the bytes as they were before the run; two images: premises met, traces equal, but nothing was
                   ever held on these bytes
    14  same       two images: premises not met, traces equal, and no certificate was asked for
    15  certified on every core that delays  without a description: the path shows nothing, and the run exited with 0. Proved for every value
                   of the bytes, on each such core; with --public-stream `certified for what is published on every core that delays`, which is 10
    16  refuted    two images: traces unequal that are proved equal: contradicts what is proved
     2             no verdict: a refusal, told on standard error

Under the model off equal traces are as where the premises aren't met. Where the budget ends a run the verdict says of how many cycles it
speaks. An interrupt ends it with status 130.

--secret may stand several times. A SYMBOL is one of the image's; without OFFSET it is meant from its first byte on, without BYTES to its
last. ADDRESS:BYTES is a secret without a name, as 0x10080:16. Of what shows first it says whether it is on the path, or on a wrong one and
since which branch, return, or load that passed a store, where the simulator is there. --all goes on behind it, and lists all that may show:
by marks of its own, without a claim.

--public-stream 1 or 2 (both where it stands twice) says that what the program writes there is public from then on (docs/secrets.md, "Make
something public"). The line `published` has how many bytes that was in this run, and which, by a run of the instruction set: the first 64.

--value HEX makes B of A: the same image, in which the bytes of --secret, one range behind the other, have this value; then the verdict is that
on the two. HEX is two digits for each byte, in the order of memory.

--set gives a key of the description another value, as --set core.rob=64 --set stt.model=off; or bytes of the images, as --set
key=00ff10 --set nonce+4:8=.. --set 0x10080=..: as many as the symbol has, as are asked for, or, at an address, as HEX has. It may stand
several times. Where a symbol is called as a key of descriptions is, its address names it. The files stay as they are; what is told says what is set.

--json writes one object in place of the lines, with all that they say: the verdict, the status, digests of files and programs, ends, places.

N is 1000000 without --cycles, and 10000000 without --steps, which is of a run of the instruction set. P is the simulator: without --program the variable STT_CLI, else crates/stt_cli/out/stt_cli. P2 is the program
that looks for secrets: without --secrets-program the variable STT_SECRETS, else crates/stt_secrets/out/stt_secrets; where there is none, two
images are judged without it. The notation is that of instructions: as compilers write them, or with numbers of registers and no aliases.
docs/using.md, "Does my routine leak?", goes through an example."""
import json
import os
import tempfile

from wadrelwy import Fault, built_programs
from wadrelwy.machine import words as asking
from wadrelwy.sweep.kept import digest
from wadrelwy.verdict import certificate, given, judge, record, report
from wadrelwy.view.disassembly import CALLERS, MANUAL

CYCLES, STEPS = 1000000, 10000000


def words(parser):
    parser.add_argument("files", nargs="+", metavar="DESCRIPTION|IMAGE", help="DESCRIPTION A B, DESCRIPTION A, or A")
    parser.add_argument("--desc", metavar="D", help="without DESCRIPTION: memory as this description has it")
    parser.add_argument("--secret", action="append", default=[], metavar="SYMBOL[+OFFSET][:BYTES]")
    asking.public_streams(parser)
    parser.add_argument("--all", action="store_true", help="of one image: list all that may show, without a claim")
    parser.add_argument("--value", metavar="HEX", help="a second value of the secret: A and its copy with this value are compared")
    parser.add_argument("--set", action="append", default=[], metavar="NAME=VALUE", help="a key of the description, or bytes of the images")
    parser.add_argument("--json", action="store_true", help="one object in place of the lines")
    parser.add_argument("--cycles", type=asking.count, metavar="N", help=f"at most so many cycles; without it {CYCLES}")
    parser.add_argument("--steps", type=asking.count, metavar="N", help=f"without DESCRIPTION: at most so many steps; without it {STEPS}")
    parser.add_argument("--program")
    parser.add_argument("--secrets-program")
    parser.add_argument("--notation", choices=(CALLERS, MANUAL), default=CALLERS)


def see(asked, *paths):
    """Keeps what these files have before anything is asked of them."""
    asked.seen |= {path: digest(path) for path in paths if path is not None and os.path.isfile(path)}


def see_again(asked):
    """Refuses a verdict of files of which one was written meanwhile: parts of it may be of the old one, and parts of the new."""
    for path, before in asked.seen.items():
        if not os.path.isfile(path) or digest(path) != before:
            raise Fault(f"{path} was written while the verdict was made: ask again")


def secrets_program(asked):
    """The program that is asked of secrets."""
    program = built_programs.secrets(asked.secrets_program)
    if program is None:
        raise Fault("no program stt_secrets: build it (docs/secrets.md, \"Before you ask\"), or name it with --secrets-program")
    return program


def of_path(asked, files):
    """The verdict on one image and its secrets, on every core that delays."""
    program = secrets_program(asked)
    see(asked, program)
    asked.one, asked.desc = files.images[0].copy, files.description and files.description.copy
    case = certificate.case_of_path(program, asked)
    tell(asked, files, case, certificate.lines(case, asked.notation), record.of_one, (program,))
    return case.status()


def of_one(asked, files):
    """The verdict on one image and its secrets."""
    program = secrets_program(asked)
    simulator = built_programs.simulator(asked.program)
    if simulator is None and (asked.all or asked.program):
        raise Fault("no simulator: build it (docs/using.md, \"Before you start\"), or name it with --program")
    see(asked, program, simulator)
    asked.description, asked.one = (file.copy for file in files.files)
    case = certificate.case_of(program, asked, simulator)
    tell(asked, files, case, certificate.lines(case, asked.notation), record.of_one, (program, simulator))
    return case.status()


def of_two(asked, files):
    """The verdict on two images."""
    program = built_programs.simulator(asked.program)
    if program is None:
        raise Fault("no simulator: build it (docs/using.md, \"Before you start\"), or name it with --program")
    secrets = built_programs.secrets(asked.secrets_program)
    see(asked, program, secrets)
    case = judge.case_of(program, *(file.copy for file in files.files), asked.cycles, secrets)
    tell(asked, files, case, report.lines(case, asked.notation), record.of_two, (program, secrets))
    return case.status()


def tell(asked, files, case, lines, as_record, programs):
    """Writes the verdict, as lines or as an object."""
    lines = [files.told(line) for line in lines]
    see_again(asked)
    if asked.json:
        lines = [json.dumps(as_record(case, files, asked.cycles or asked.steps, programs, lines), indent=1)]
    print("\n".join(lines))


def checked(asked):
    """These words, where they go together: what of the files is the description, and which are images."""
    if len(asked.files) > 3:
        raise Fault("a description and two images are asked for, or one with --secret")
    core = len(asked.files) > 1
    asked.description, *images = asked.files if core else [None, *asked.files]
    if (len(images) == 1) != bool(asked.secret):
        raise Fault("two images are asked for, or one with --secret")
    for name, value in (("--all", asked.all), ("--public-stream", asked.public_stream)):
        if value and (len(images) > 1 or asked.value is not None):
            raise Fault(f"{name} is of one image and its secret")
    if len(images) > 1 and asked.value is not None:
        raise Fault("--value is of one image and its secret: the second image is made of the first")
    of_core = (("--all", asked.all), ("--value", asked.value is not None), ("--cycles", asked.cycles is not None), ("--program", asked.program))
    of_steps = (("--steps", asked.steps is not None), ("--desc", asked.desc is not None))
    for name, value in of_steps if core else of_core:
        if value:
            raise Fault(f"{name} is asked of {'an image without' if core else 'a core, by'} a description")
    if core:
        asked.cycles = asked.cycles or CYCLES
    else:
        asked.steps = asked.steps or STEPS
    return images


def main(asked):
    images = checked(asked)
    asked.seen = {}
    see(asked, asked.description, asked.desc, *images)
    with tempfile.TemporaryDirectory() as folder:
        files = given.of_words(asked.description or asked.desc, images, asked.set, asked.secret, asked.value, folder)
        answer = of_two if len(files.images) == 2 else of_one if asked.description else of_path
        return given.asked(files, lambda: answer(asked, files))
