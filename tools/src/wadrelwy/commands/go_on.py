"""An image that goes on where a run of the instruction set stands after some steps.

    wadrelwy continue IMAGE --steps N -o OUT.elf [--desc D] [--at ADDRESS] [--program P]
    wadrelwy continue IMAGE --to-call NUMBER[:COUNT] -o OUT.elf [--desc D] [--at ADDRESS] [--program P]

The new image has memory as the first N steps leave it, the program's code where it was, and 63 instructions more, which set the registers
and jump to the pc: its run takes these 63 steps, and then it does what the old one does from its step N on. What the program put out before
isn't put out again. It is an image as any other: every promise of docs/theorems.md holds of its run, of a core that begins cold there.

--to-call goes to the COUNT-th call (the first without COUNT) with this number in a7, such as one that the machine doesn't know and answers with
-38: a marker of the program's own. The new image begins behind the call. Steps are counted by a walk in Python, some 200,000 a second.

The 63 instructions stand in memory that no segment takes and that the run has left alone until then, in the middle of the largest such gap within
1 MiB of the pc; --at names another place. Whether the program uses that place later can't be seen here: heaps grow up from a gap's low end and stacks
down from its high end. The last line says what was made of what, and where the 63 instructions stand.

Refused by name: a run that ends before; one that wrote over its own code, since an image has one word for what is fetched and what is loaded; one
without room. Memory is that of `isa`, 1 MiB from 0x00010000 on, or that of the description of --desc."""
from argparse import ArgumentParser, Namespace

from wadrelwy import Fault, built_programs, statuses
from wadrelwy.going_on import room, standing, stub, written
from wadrelwy.riscv.kinds import CALL
from wadrelwy.sweep.kept import write
from wadrelwy.verdict.hart import Hart
from wadrelwy.verdict.loaded import Loaded, load
from wadrelwy.view.description import read_description

# more steps than any run is asked for
FOREVER = 1 << 62


def number(text: str) -> int:
    return int(text, 0)


def call(text: str) -> tuple[int, int]:
    """NUMBER or NUMBER:COUNT."""
    wanted, _, count = text.partition(":")
    found = int(wanted, 0), int(count or "1", 0)
    if found[1] < 1:
        raise ValueError(text)
    return found


def words(parser: ArgumentParser) -> None:
    parser.add_argument("image", metavar="IMAGE")
    where = parser.add_mutually_exclusive_group(required=True)
    where.add_argument("--steps", type=number, metavar="N")
    where.add_argument("--to-call", type=call, metavar="NUMBER[:COUNT]")
    parser.add_argument("-o", "--output", required=True, metavar="OUT.elf")
    parser.add_argument("--desc", metavar="D")
    parser.add_argument("--at", type=number, metavar="ADDRESS")
    parser.add_argument("--program", metavar="P")


def steps_to_call(image: Loaded, wanted: int, count: int) -> int:
    """How many steps end with the COUNT-th call of this number."""
    hart, found = Hart(image), 0
    for _ in range(FOREVER):
        asked = hart.registers[17]
        decoded = hart.advance()
        if hart.end is not None:
            raise Fault(f"{image.name}: the run ends after {hart.retired} steps, with {found} calls of the number {wanted}")
        if decoded.kind == CALL and asked == wanted:
            found += 1
            if found == count:
                return hart.retired
    raise Fault(f"{image.name}: no such call")


def main(asked: Namespace) -> int:
    program = built_programs.needed(built_programs.SIMULATOR, asked.program)
    machine = read_description(asked.desc) if asked.desc else None
    image = load(asked.image, machine) if machine else Loaded(asked.image, standing.BASE, standing.SIZE)
    steps = asked.steps if asked.steps is not None else steps_to_call(image, *asked.to_call)
    stands = standing.stands(program, image, steps, asked.desc)
    at = room.find_room(stands) if asked.at is None else room.named_room(stands, asked.at)
    code = stub.stub(at, stands.report.registers, stands.report.pc)
    write(asked.output, written.elf_file(written.segments(stands, at, code), written.symbols_of(asked.image), at))
    print(f"{asked.output}: {asked.image} after {steps} steps, at {image.named(stands.report.pc)}; {stub.STEPS} instructions from {at:08x} on "
          "set the registers first")
    return statuses.HOLDS
