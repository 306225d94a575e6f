"""Where instructions come from: the line table of an image that was built with `-g` (DWARF, versions 2 to 5).

It is read once, when it is first asked, and is empty where the image has none. Other tools ask an image (`Image.sources`), or a
file by `read_sources`.
"""
import bisect
import os
from typing import Any, Iterator, NamedTuple, Optional

from wadrelwy.elf import Array, ConstructError, DWARFError, ELFError, ELFFile

from . import Fault


class Line(NamedTuple):
    """A line of a source file: the file's path as the compiler was told it, made whole by the folder that it ran in, and a number."""

    path: str
    number: int


class Sources:
    """The lines of an image's addresses. `rows` are (address, line), by address; from each on up to the next its line holds, or none."""

    def __init__(self, rows: Any = ()) -> None:
        self.rows = sorted_rows(rows)
        self.addresses = [address for address, _ in self.rows]
        self.names = short_names({line.path for _, line in self.rows if line is not None})

    def __bool__(self):
        return bool(self.rows)

    def line(self, address: int) -> "Optional[Line]":
        """The line of an address, or None."""
        place = bisect.bisect_right(self.addresses, address) - 1
        return self.rows[place][1] if place >= 0 else None

    def told(self, address: int) -> str:
        """`sort.c:12`, or nothing where the line isn't known. Folders are told where two files have one name."""
        line = self.line(address)
        return f"{self.names[line.path]}:{line.number}" if line is not None else ""


def sorted_rows(rows: Any) -> list:
    """The rows by address. Of several of one address the last one counts; the end of a sequence counts where no other begins there."""
    kept: dict = {}
    for address, line in rows:
        if line is not None or address not in kept:
            kept[address] = line
    return sorted(kept.items(), key=lambda row: row[0])


def short_names(paths: set) -> dict:
    """Each path by as few of its last parts as tell it from the others."""
    names: dict = {}
    longer = 1
    left = set(paths)
    while left:
        told = {path: "/".join(path.split("/")[-longer:]) for path in left}
        texts = list(told.values())
        alone = {path for path, text in told.items() if texts.count(text) == 1 or longer > path.count("/")}
        names |= {path: told[path] for path in alone}
        left, longer = left - alone, longer + 1
    return names


def read_sources(name: str) -> "Sources":
    """The lines of an image's file."""
    try:
        with open(name, "rb") as file:
            elf = ELFFile(file)
            if elf.get_section_by_name(".debug_line") is None:
                return Sources()
            return Sources(rows_of(elf.get_dwarf_info(relocate_dwarf_sections=False)))
    except OSError as error:
        raise Fault(f"{name}: {error.strerror}") from None
    except (ELFError, DWARFError, ConstructError, LookupError, ValueError, AttributeError, TypeError, AssertionError) as error:
        raise Fault(f"{name}: the line table (-g) can't be read: {type(error).__name__} {error}".rstrip()) from None


def rows_of(dwarf: Any) -> Iterator:
    """The rows of all line tables, each once."""
    known = set()
    for unit in dwarf.iter_CUs():
        top = unit.get_top_DIE()
        place = top.attributes.get("DW_AT_stmt_list")
        if place is None or place.value in known:
            continue
        known.add(place.value)
        folder = top.attributes.get("DW_AT_comp_dir")
        # clang tells a checksum of each file in this form, which pyelftools 0.29 doesn't know
        unit.structs.Dwarf_dw_form.setdefault("DW_FORM_data16", Array(16, unit.structs.Dwarf_uint8("")))
        yield from rows_of_table(dwarf.line_program_for_CU(unit), text_of(folder.value) if folder else "")


def rows_of_table(table: Any, folder: str) -> Iterator:
    """The rows of one line table. A row of line 0 has no line."""
    paths = paths_of(table.header, folder)
    for entry in table.get_entries():
        state = entry.state
        if state is None:
            continue
        known = not state.end_sequence and state.line and 0 <= state.file < len(paths)
        yield state.address, Line(paths[state.file], state.line) if known else None


def paths_of(header: Any, folder: str) -> list:
    """The path of each number of a file. Before version 5 they are counted from 1, and folder 0 is the one that the compiler ran in."""
    new = header["version"] >= 5
    folders = [text_of(name) for name in header["include_directory"]]
    folders = folders if new else [folder, *folders]
    paths = [] if new else [""]
    for entry in header["file_entry"]:
        within = folders[entry["dir_index"]] if entry["dir_index"] < len(folders) else ""
        paths.append(os.path.normpath(os.path.join(folder, within, text_of(entry["name"]))))
    return paths


def text_of(name: bytes) -> str:
    """The text of a name; none where it is only told by a number."""
    return name.decode("utf-8", "replace") if isinstance(name, bytes) else name if isinstance(name, str) else ""
