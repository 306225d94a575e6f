"""The instruction set's run of an image, outside the simulator: a commit log, the report of `isa`, the bytes loaded.

    wadrelwy path log IMAGE [--steps N] [--desc D] [--model M]
    wadrelwy path report IMAGE [--steps N] [--desc D]
    wadrelwy path loads IMAGE [--steps N] [--desc D] [--model M]

`log` writes a line a step: pc, word, the register written and its value, the bytes accessed, the instruction, its symbol. `report`
writes what the simulator's `isa` writes. `loads` writes each byte that is loaded with the first load's pc. N is 1000000 without --steps: where the run
goes on behind N steps the last line says so, and of `loads` a line on standard error. Without --desc memory is that
of `isa`: 1 MiB from 0x00010000 on. --model spectre and --model off pass over loads and stores that would trap, as the path of these
models does; without --model they trap."""
import sys
from argparse import ArgumentParser, Namespace
from typing import Iterator

from wadrelwy import statuses
from wadrelwy.verdict import hart, path
from wadrelwy.verdict.loaded import Loaded, load
from wadrelwy.view.description import FUTURISTIC, OFF, SPECTRE, read_description
from wadrelwy.view.disassembly import Disassembler


def words(parser: ArgumentParser) -> None:
    parser.add_argument("what", choices=["log", "report", "loads"])
    parser.add_argument("image", metavar="IMAGE")
    parser.add_argument("--steps", type=int, default=1000000)
    parser.add_argument("--desc")
    parser.add_argument("--model", choices=[SPECTRE, FUTURISTIC, OFF], default=FUTURISTIC)


def log(image: Loaded, run: hart.Hart, steps: int) -> Iterator[str]:
    texts = Disassembler(image)
    for step in run.run(steps):
        yield path.log_line(step, texts)
    yield hart.end_text(run.end, run.retired)


def loads(image: Loaded, model: str, steps: int) -> Iterator[str]:
    walked = path.walk(image, model, steps)
    for address, pc in sorted(walked.loads.items()):
        yield f"{image.named(address)} first at {image.named(pc)}"
    if walked.end is None:
        print(f"wadrelwy path: the run goes on behind these {walked.steps} steps; --steps N looks further", file=sys.stderr)


def main(asked: Namespace) -> int:
    machine = read_description(asked.desc) if asked.desc else None
    image = load(asked.image, machine)
    run = path.hart_of(image, asked.model)
    if asked.what == "report":
        for _ in run.run(asked.steps):
            pass
        print(hart.report(run, image), end="")
        return statuses.HOLDS
    for line in log(image, run, asked.steps) if asked.what == "log" else loads(image, asked.model, asked.steps):
        print(line)
    return statuses.HOLDS
