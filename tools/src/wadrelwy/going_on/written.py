"""The image that goes on, as an ELF file (docs/formats.md, "Images")."""
import struct
from itertools import accumulate
from typing import Iterator, NamedTuple

from wadrelwy.elf import ELFFile

from .standing import Standing

HEADER, PROGRAM_HEADER, SECTION_HEADER = 52, 32, 40
CODE, DATA = 5, 6
# blocks of so many bytes are looked at whether they are zero: fewer zeros cost less as bytes of the file than as a segment's end and another one.
# Most of memory is zero, so MANY of them are looked at together first
BLOCK, MANY = 1024, 32
ZEROS = bytes(BLOCK * MANY)
SYMBOLS, NAMES = 2, 3


class Segment(NamedTuple):
    """The bytes of memory from an address on, with the flags of their program header."""
    address: int
    data: bytes
    flags: int


class Section(NamedTuple):
    """A section of symbols or names."""
    name: bytes
    kind: int
    link: int
    info: int
    size: int
    data: bytes


def blocks(data: bytes, first: int, end: int, size: int) -> Iterator[int]:
    """Of the blocks of so many bytes from `first` on, of which the last is cut, those that aren't zero: where each begins."""
    for at in range(first, end, size):
        part = data[at:min(at + size, end)]
        if part != ZEROS[:len(part)]:
            yield at


def runs_of_bytes(data: bytes, low: int, high: int) -> Iterator[tuple[int, bytes]]:
    """The stretches of `data` from `low` to `high` that aren't zero, each with where it begins; they are parted where whole blocks are zero."""
    found = [at for many in blocks(data, low, high, BLOCK * MANY) for at in blocks(data, many, min(many + BLOCK * MANY, high), BLOCK)]
    first = behind = low
    # one behind the end ends the last stretch
    for at in [*found, high + BLOCK]:
        if at > behind:
            kept = data[first:min(behind, high)].lstrip(b"\0")
            if kept:
                yield min(behind, high) - len(kept), kept.rstrip(b"\0")
            first = at
        behind = at + BLOCK


def segments(standing: Standing, at: int, stub: bytes) -> list[Segment]:
    """All of memory that isn't zero, with the code where it was and the stub at its place."""
    image = standing.image
    base, memory = image.base, standing.memory
    codes = [(start, memory[start - base:start - base + len(data)]) for start, data in image.pieces] + [(at, stub)]
    found, behind = [], base

    def data(low: int, high: int) -> list[Segment]:
        return [Segment(base + first, kept, DATA) for first, kept in runs_of_bytes(memory, low - base, high - base)]

    for start, code in sorted(codes):
        found += [*data(behind, start), Segment(start, code, CODE)]
        behind = max(behind, start + len(code))
    return found + data(behind, base + len(memory))


def symbols_of(name: str) -> list[Section]:
    """The sections of symbols and of their names of an image, so that the image that goes on has the same names; none where it has none."""
    with open(name, "rb") as file:
        elf = ELFFile(file)
        table = elf.get_section_by_name(".symtab")
        if table is None:
            return []
        names = elf.get_section(table["sh_link"])
        return [Section(b".symtab", SYMBOLS, 2, table["sh_info"], 16, table.data()), Section(b".strtab", NAMES, 0, 0, 0, names.data())]


def section_headers(sections: list[Section], at: int) -> tuple[bytes, bytes]:
    """The bytes of the sections, which stand from the place `at` of the file on, and the table of their headers."""
    named = sections + [Section(b".shstrtab", NAMES, 0, 0, 0, b"")]
    names = b"\0" + b"".join(each.name + b"\0" for each in named)
    table, body = bytes(SECTION_HEADER), b""
    for each in named:
        data = each.data or names
        table += struct.pack("<10I", names.index(each.name + b"\0"), each.kind, 0, 0, at + len(body), len(data), each.link, each.info, 4, each.size)
        body += data + bytes(-len(data) % 4)
    return body, table


def elf_file(parts: list[Segment], sections: list[Section], entry: int) -> bytes:
    """The file of these segments and sections."""
    place = HEADER + PROGRAM_HEADER * len(parts)
    begins = accumulate((len(part.data) for part in parts), initial=place)
    table = b"".join(struct.pack("<8I", 1, at, part.address, part.address, len(part.data), len(part.data), part.flags, 4)
                     for at, part in zip(begins, parts))
    body = b"".join(part.data for part in parts)
    body += bytes(-(place + len(body)) % 4)
    data, headers = section_headers(sections, place + len(body)) if sections else (b"", b"")
    begin = place + len(body) + len(data) if sections else 0
    count = len(headers) // SECTION_HEADER
    header = b"\x7fELF\x01\x01\x01" + bytes(9) + struct.pack(
        "<HHIIIIIHHHHHH", 2, 243, 1, entry, HEADER, begin, 0, HEADER, PROGRAM_HEADER, len(parts), SECTION_HEADER if count else 0, count, max(count - 1, 0))
    return header + table + body + data + headers
