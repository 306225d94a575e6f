"""What the notes of the built programs mean, and what to do (docs/formats.md, "Notes", "Faults of images", "Faults of descriptions")."""
import re
from typing import Callable, Mapping, Optional, Union

from wadrelwy.view.description import DEFENCES

# the range of each number of a description, as the tables of docs/formats.md, "Keys", have it
RANGES = {
    "core.fetch_width": "1 to 4", "core.retire_width": "1 to 4", "core.rob": "4 to 64; in version 2 4 to 192",
    "core.stations": "2 to 32; in version 2 2 to 96", "core.loads": "1 to 16; in version 2 1 to 64",
    "core.stores": "1 to 16; in version 2 1 to 48", "core.queue": "1 to 16; in version 2 1 to 32", "units.alus": "1 to 4",
    "units.mul_latency": "1 to 8", "predictor.counters": "2 to 4096", "predictor.btb": "1 to 256", "cache.sets": "1 to 256",
    "cache.ways": "1 to 8", "cache.line": "4 to 64", "cache.hit_latency": "1 to 8", "cache.miss_latency": "2 to 200", "cache.mshrs": "1 to 8",
    "ram.base": "0 to 4294963200", "ram.size": "4096 to 16777216", "ram.misaligned": "0 or 1", "predictor.depend": "0 to 1024",
    "predictor.history": "0 to 12", "predictor.returns": "0 to 16", "cache.second_sets": "0 to 1024", "cache.second_ways": "1 to 8",
    "cache.second_latency": "2 to 100", "cache.prefetch": "0 or 1",
}
# what is asked of a number beside its range, as the same tables have it
SHAPES = {
    "predictor.counters": "power of two", "predictor.btb": "power of two", "cache.sets": "power of two", "cache.line": "power of two",
    "cache.miss_latency": "above cache.hit_latency", "ram.base": "multiple of 16",
    "ram.size": "multiple of 16; base and size add up to at most 4294967296", "cache.mshrs": "at least 2 with ram.misaligned = 1",
    "predictor.depend": "zero or a power of two", "cache.second_sets": "zero or a power of two",
    "cache.second_latency": "above cache.hit_latency and below cache.miss_latency, where there is a second level",
}
NAMES = {"stt.model": '"spectre" or "futuristic"; in version 2 also "off"', "stt.defence": " or ".join(f'"{name}"' for name in DEFENCES)}
VERSION_2 = ("ram.misaligned", "predictor.depend", "predictor.history", "predictor.returns", "cache.second_sets", "cache.second_ways",
             "cache.second_latency", "cache.prefetch", "stt.defence")
FORMATS = "docs/formats.md"
BUILD = "build with -march=rv32im -mabi=ilp32"


def unknown_name(name: str) -> str:
    if name in VERSION_2:
        return f"{name} is of version 2: `version = 2` as the first line"
    return f'there is no key `{name}` ({FORMATS}, "Keys")'


def other_kind(name: str) -> str:
    if name in NAMES:
        return f"{name} is {NAMES[name]}"
    return f"{name} is 1 or 2" if name == "version" else f"{name} is a whole number" if "." in name else f"{name} is a table, [{name}]"


def out_of_range(key: str, value: str) -> str:
    return f"{key} is {RANGES.get(key, '1 or 2')}, and {value} isn't"


def shape(key: str) -> str:
    return f"{key} has to be {SHAPES.get(key, 'of another shape')}"


def file_type(number: str) -> str:
    return {"1": "an object file: link it", "3": "position-independent: link with -static -no-pie"}.get(number, "no executable file")


Meaning = Union[str, Callable[..., str]]
MEANINGS: "list[tuple[str, Meaning]]" = [
    (r"words", f'it doesn\'t know these words ({FORMATS}, "Words"): is it an older one?'),
    (r"description too long", "a description has at most 65,536 bytes"),
    (r"description K1", "no TOML text: are description and image exchanged?"),
    (r"description K2 (.+)", unknown_name),
    (r"description K3 (.+)", lambda key: f"{key} is missing: begin with a file of examples/"),
    (r"description K4 (.+)", other_kind),
    (r"description K5 (\S+) (\S+)", out_of_range),
    (r"description K6 (\S+)", shape),
    (r"image2? too long", "an image has at most 33,554,432 bytes"),
    (r"image2? E1 .*", "fewer than the 52 bytes of a header: empty, or cut"),
    (r"image2? E2", "no ELF image: are description and image exchanged?"),
    (r"image2? E3 2", f"a 64-bit image: {BUILD}, and for clang --target=riscv32-unknown-elf"),
    (r"image2? E3 .*", f"neither of 32 bits nor of 64: {BUILD}"),
    (r"image2? E4 .*", f"big-endian: {BUILD}"),
    (r"image2? E5 .*", "another version of ELF"),
    (r"image2? E6 (\d+)", file_type),
    (r"image2? E7 .*", "for another machine: build by riscv64-unknown-elf-gcc, or clang --target=riscv32-unknown-elf"),
    (r"image2? E8 .*", f"compressed code: {BUILD}, without a c"),
    (r"image2? E(?:9|10) .*", "damaged: its table of segments isn't whole"),
    (r"image2? E11 .*", "linked against shared libraries: link with -static"),
    (r"image2? E1[23] .*", "damaged: a segment isn't whole"),
    (r"image2? E14 (\d+)", lambda number: f"segment {number} lies outside memory, as ram.base and ram.size give it (readelf -lW shows where it "
                                          "lies): link with examples/c/link.ld, or make ram.size larger"),
    (r"secret (\d+) outside", lambda number: f"secret range {number}, counted from 0, isn't within memory"),
    (r"secret (\d+) code", lambda number: f"secret range {number}, counted from 0, touches code, which is public"),
    (r"write", "the text couldn't be written whole"),
    (r"memory", "there was no memory"),
]


def meaning(note: str) -> Optional[str]:
    """What a note means; none where there is no more to say."""
    for form, text in MEANINGS:
        found = re.fullmatch(form, note)
        if found:
            return text if isinstance(text, str) else text(*found.groups())
    return None


def unread(path: str) -> str:
    """Why a file can't be read."""
    try:
        with open(path, "rb"):
            return f"{path}: it can't be read"
    except OSError as error:
        return f"{path}: {error.strerror}"


def told(note: str, files: Mapping[str, str]) -> str:
    """A note with the file that it is of and what it means; `files` are those of the words, by `description`, `image` and `image2`."""
    which = note.split()[-1] if note.startswith("read ") else note.split()[0] if note else ""
    path = files.get(which)
    if note.startswith("read ") and path:
        return unread(path)
    means = meaning(note)
    return (f"{path}: " if path else "") + note + (f": {means}" if means else "")
