"""What the tests share: files of the repository, worked traces, small images, and the program if it is built."""
import importlib.util
import os
import re
import struct
import subprocess
import tempfile
import unittest

ROOT = os.path.dirname(os.path.dirname(os.path.dirname(os.path.abspath(__file__))))
TOOL = os.path.join(ROOT, "tools", "wadrelwy")
from wadrelwy import built_programs
from evaluate import model
from generate.generated import image
from wadrelwy.verdict.loaded import load
from wadrelwy.view import stats
from wadrelwy.view.description import DEFENCES, OPTIONAL, STT, read_description
from wadrelwy.view.disassembly import KINDS, Disassembler
from wadrelwy.view.image import Image
from wadrelwy.view.replay import Replay
from wadrelwy.view.trace import Trace

EXAMPLES = ("bounds_check", "fault_shadow", "store_bypass", "tainted_store", "tainted_divisor", "target_injection")
PROGRAM = built_programs.simulator()
# why no command that reads an image can be tried, if there is a reason
NO_IMAGES = "" if importlib.util.find_spec("elftools") else "no python3-pyelftools"
NO_PROGRAM = None if PROGRAM else "the program isn't built (crates/stt_cli/out/stt_cli, or STT_CLI)"
FOLDER = tempfile.TemporaryDirectory()

LARGEST = {"fetch_width": 4, "retire_width": 4, "rob": 64, "stations": 32, "loads": 16, "stores": 16, "queue": 16, "alus": 4,
           "mul_latency": 8, "sets": 16, "ways": 4, "line": 64, "hit_latency": 3, "miss_latency": 40, "mshrs": 8}
# what may be larger in version 2
LARGER = {"rob": 192, "stations": 96, "loads": 64, "stores": 48, "queue": 32}
SMALLEST = {"fetch_width": 1, "retire_width": 1, "rob": 4, "stations": 2, "loads": 1, "stores": 1, "queue": 1, "alus": 1,
            "mul_latency": 1, "counters": 2, "btb": 1, "sets": 1, "ways": 1, "line": 4, "hit_latency": 1, "miss_latency": 2,
            "mshrs": 1}


def answer(ended):
    """What a command has answered; where it could read no image, as there is no pyelftools, the test is skipped."""
    if NO_IMAGES and "has no package elftools" in ended.stderr:
        raise unittest.SkipTest(NO_IMAGES)
    return ended


def example(name):
    return os.path.join(ROOT, "examples", name)


def file_of(name, data):
    """A file of these bytes, which is there as long as the tests run."""
    path = os.path.join(FOLDER.name, name)
    with open(path, "wb") as file:
        file.write(data)
    return path


def image_of_words(name, words):
    """The file of an image that has these words at 0x00010000."""
    return file_of(name + ".elf", image(words))


def elf(segments, entry=0x00010000):
    """The bytes of an image with these segments: flags, address, bytes of the file, number of bytes in memory."""
    place = 52 + 32 * len(segments)
    headers, contents = b"", b""
    for flags, address, data, size in segments:
        headers += struct.pack("<8I", 1, place + len(contents), address, address, len(data), size, flags, 1)
        contents += data
    identification = b"\x7fELF" + bytes([1, 1, 1]) + bytes(9)
    header = identification + struct.pack("<HHIIIIIHHHHHH", 2, 243, 1, entry, 52, 0, 0, 52, 32, len(segments), 0, 0, 0)
    return header + headers + contents


def description(name, model, version=1, **changes):
    """The file of the example description of a version with other values."""
    with open(example("core.toml" if version == 1 else "core_version_2.toml"), encoding="utf-8") as file:
        text = file.read()
    for key, value in changes.items():
        table, _ = OPTIONAL.get(key, (None, None))
        old, new = (rf"^\[{table}\]$", rf"[{table}]\n{key} = {value}") if table else (rf"^{key} = \d+", f"{key} = {value}")
        text = re.sub(old, new, text, flags=re.M)
    return file_of(f"{name}_{model}_{version}.toml", text.replace('"spectre"', f'"{model}"').encode())


def descriptions(version=1, models=("spectre", "futuristic"), **more):
    """The example description of a version, a small and a large one, each under these models; with more keys where they are given.

    A file's name has the values of those keys, so that two descriptions never share one."""
    settings = [f"{key}_{str(value).strip(chr(34))}" for key, value in more.items()]
    changes = {"example": {}, "smallest": SMALLEST, "largest": LARGEST if version == 1 else LARGEST | LARGER}
    return [description("_".join([name, *settings]), model, version, **changes[name] | more)
            for name in changes for model in models]


def defended(**keys):
    """These keys of a description, and for each defence but STT's own these with it."""
    return [keys] + [keys | {"defence": f'"{name}"'} for name in DEFENCES if name != STT]


def worked_trace(heading):
    """The first trace of this section of docs/machine.md, as lines; the cycles without events are put back.

    Some sections leave out what is as in the bounds check: the first lines, or all but those in the middle.
    """
    rows = worked_rows(heading)
    last = rows.pop("end", None)
    rest = worked_rows("Bounds check bypass") if last is None or min(rows) > 1 else {}
    end = rest.pop("end", None)
    rows |= {cycle: row for cycle, row in rest.items() if cycle not in rows and (last is None or cycle < min(rows))}
    last = last or end
    return [f"{rows.get(cycle, cycle)}\n" for cycle in range(1, int(last.split()[-1]) + 1)] + [last + "\n"]


def worked_rows(heading):
    """The lines of a worked trace as the page has them, by cycle; the last one by `end`."""
    with open(os.path.join(ROOT, "docs", "traces.md"), encoding="utf-8") as file:
        section = file.read().split(f"\n### {heading}\n")[1].split("\n### ")[0]
    rows = next(block for block in section.split("```")[1::2] if re.match(r"\n\d+ \w+:", block)).strip().splitlines()
    return {int(cycle) if cycle.isdigit() else cycle: row for cycle, row in ((row.split()[0], row) for row in rows)}


def with_empty_rows(text):
    """The lines of a trace, with those of the cycles without events put back."""
    *rows, last = text.splitlines()
    rows = {int(row.split()[0]): row for row in rows}
    return [f"{rows.get(cycle, cycle)}\n" for cycle in range(1, max(rows) + 1)] + [last + "\n"]


def replay(lines, image_file, description_file):
    """A run taken through, and its instructions by their serials."""
    run = Replay(Trace(iter(lines)), Image(image_file), read_description(description_file))
    items = list(run.items())
    return run, {item.serial: item for item in items if item.serial >= 0}, items


def bounds_check():
    """The worked trace of the bounds check, taken through."""
    return replay(worked_trace("Bounds check bypass"), example("bounds_check.elf"), example("core.toml"))


def fresh(lines, image_file, description_file):
    """A run that hasn't been taken through yet, and the texts of its instructions, which no disassembler changes."""
    loaded = Image(image_file)
    return Replay(Trace(iter(lines)), loaded, read_description(description_file)), Disassembler(loaded, KINDS)


def taken(run, disassembler, **more):
    """A run taken through, with its numbers."""
    return stats.Run("a.trace", run, disassembler, **more)


def fresh_bounds_check():
    return fresh(worked_trace("Bounds check bypass"), example("bounds_check.elf"), example("core.toml"))


def modelled(description_file, image_file, cycles):
    """The trace that the model of tools/evaluate writes, as lines."""
    with open(description_file, encoding="utf-8") as file:
        numbers = model.read_numbers(file.read())
    lines, _ = model.trace(numbers, load(image_file, numbers), cycles)
    return [line + "\n" for line in lines]


def stored(name):
    """The lines of a stored run's trace, its image and its description."""
    folder = os.path.join(ROOT, "tools", "evaluate", "runs", name)
    with open(os.path.join(folder, "trace"), encoding="ascii") as lines:
        return lines.readlines(), os.path.join(folder, "image.elf"), os.path.join(folder, "core.toml")


def run_program(*words):
    """The program's answer."""
    return subprocess.run([PROGRAM, *words], capture_output=True, text=True, timeout=60)


def trace_of(description_file, image_file, cycles):
    """The program's trace, as lines."""
    answer = run_program("trace", description_file, image_file, "--cycles", str(cycles))
    assert answer.returncode in (0, 1, 3), (answer.returncode, answer.stderr)
    return answer.stdout.splitlines(keepends=True)
