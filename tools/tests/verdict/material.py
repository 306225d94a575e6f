"""What the tests run on, beside what the tests of tools/src/wadrelwy/view have: images with secrets, and reports of runs."""
import functools
import glob
import os
import re
import struct
import subprocess
import sys
import unittest

TOOLS = os.path.dirname(os.path.dirname(os.path.dirname(os.path.abspath(__file__))))
import support
from programs import PROGRAMS
from wadrelwy.verdict import hart, simulator
from wadrelwy.verdict.loaded import Loaded, load
from wadrelwy.view.description import read_description

CODE, DATA = 0x00010000, 0x0001fff0
SECRET = DATA + 8
ISA_BASE, ISA_SIZE = 0x00010000, 1 << 20
CORE, CORE_FUTURISTIC = support.example("core.toml"), support.example("core_futuristic.toml")
RUNS = sorted(map(os.path.dirname, glob.glob(os.path.join(support.ROOT, "tools", "evaluate", "runs", "*", "trace"))))
needs_program = unittest.skipIf(support.NO_PROGRAM, support.NO_PROGRAM)

BOUND_0, BOUND_1 = bytes(8), bytes([1]) + bytes(7)
DATA_FLAGS, CODE_FLAGS = 6, 5


def read(*names):
    with open(os.path.join(support.ROOT, *names), encoding="utf-8") as file:
        return file.read()


def words(*numbers):
    return struct.pack(f"<{len(numbers)}I", *numbers)


def segment(address, data, executable=False):
    return CODE_FLAGS if executable else DATA_FLAGS, address, data, len(data)


def loaded(name, segments, entry=CODE, size=65536):
    """An image of these segments, in memory from 0x00010000 on."""
    return Loaded(support.file_of(name, support.elf(segments, entry)), CODE, size)


def image_file(name, numbers, data=b""):
    """A file of an image: words at 0x00010000, and bytes at 0x0001fff0, where x2 points under core.toml."""
    segments = [segment(CODE, words(*numbers), True)] + ([segment(DATA, data)] if data else [])
    return support.file_of(name, support.elf(segments))


def gadget_file(name, data):
    """A stored gadget with other data: the bound, and the secret behind it."""
    with open(support.example(f"{name}.elf"), "rb") as file:
        content = bytearray(file.read())
    headers = int.from_bytes(content[28:32], "little")
    for at in range(headers, headers + 32 * int.from_bytes(content[44:46], "little"), 32):
        kind, place, address = struct.unpack_from("<3I", content, at)
        if kind == 1 and address == DATA:
            content[place:place + len(data)] = data
    return support.file_of(f"{name}_{data.hex()}.elf", bytes(content))


def gadget(name, data):
    return Loaded(gadget_file(name, data), CODE, 65536)


def program(name):
    """One of the small programs of the tests of tools/src/wadrelwy/view, with data."""
    return Loaded(image_file(f"{name}.elf", PROGRAMS[name], bytes(9)), CODE, 65536)


@functools.cache
def programs():
    """The words of each small program that there is: in the tests of tools/src/wadrelwy/view, and in those of the crates."""
    found = dict(PROGRAMS)
    for path in sorted(glob.glob(os.path.join(support.ROOT, "crates", "*", "src", "**", "*.rt"), recursive=True)):
        with open(path, encoding="utf-8") as file:
            text = re.sub(r"//.*", "", file.read())
            for name, numbers in re.findall(r"const (\w+): \[u32; \d+\] =\s*\[([^\]]*)\]", text):
                found[name] = [int(number, 0) for number in numbers.replace("_", "").split(",") if number.strip()]
    return found


def command(name, *arguments):
    """What a command of this tool writes, and its status."""
    return support.answer(subprocess.run([sys.executable, support.TOOL, name, *arguments], capture_output=True, text=True, check=False))


def isa_report(path, steps, description=None):
    """What the simulator's `isa` writes."""
    return simulator.run(support.PROGRAM, "isa", path, "--steps", str(steps), *(["--desc", description] if description else []))


def own_report(path, steps, description=None):
    """The report of the run by this tool."""
    machine = read_description(description) if description else None
    image = load(path, machine) if machine else Loaded(path, ISA_BASE, ISA_SIZE)
    run = hart.Hart(image)
    for _ in run.run(steps):
        pass
    return hart.report(run, image)
