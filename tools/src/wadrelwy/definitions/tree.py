"""All definitions and contracts of a tree, and what a name of one file stands for."""
import glob
import os
from typing import NamedTuple

from wadrelwy.definitions import rust
from wadrelwy.definitions.antt import Definition, Module


class Place(NamedTuple):
    """Something that has a definition: the file without its ending, its name there, and of a field or variant the type that has it."""
    file: str
    name: str
    member: str = ""


class Code(NamedTuple):
    """A file of code."""
    file: str
    module: Module
    functions: tuple[rust.Function, ...]
    declared: tuple[rust.Declared, ...]


class Tree:
    """The files of `crates/*/specs` and `crates/*/src` below a folder."""

    def __init__(self, top: str) -> None:
        self.top = top
        # files of definitions, by the name that a `use` has for them
        self.modules: dict[str, Module] = {}
        # files of code, by their paths below crates/ without the ending
        self.code: dict[str, Code] = {}
        for path in files(top, "specs/**/*.antt"):
            name = path.replace("/", ".")
            self.modules[name] = Module(name, read(top, path, ".antt"))
        for path in files(top, "src/*.rt"):
            text = read(top, path, ".rt")
            self.code[path] = Code(path, Module(path, text, is_code=True), tuple(rust.functions(text)), tuple(rust.declared(text)))
        self.crates = {path.split("/")[0] for path in self.code}
        # by crate and name, where a type of the code is declared
        self.types: dict[tuple[str, str], list[tuple[str, rust.Declared]]] = {}
        for path, code in self.code.items():
            for it in code.declared:
                self.types.setdefault((path.split("/")[0], it.name), []).append((path, it))
        # by its name each field, with the types that have it
        self.fields: dict[str, list[Place]] = {}
        self.read_fields()

    def read_fields(self) -> None:
        """Notes which types have which fields."""
        for it in self.definitions():
            for member in it.members if it.kind == "record" else ():
                self.fields.setdefault(member, []).append(Place(file_of(it.module), it.name, member))
        for path, code in self.code.items():
            for kept in code.declared:
                for member in kept.members if kept.kind != "enum" else ():
                    self.fields.setdefault(member, []).append(Place(path, kept.name, member))

    def definitions(self) -> list[Definition]:
        """All definitions, by their files."""
        return [it for module in self.modules.values() for it in module.definitions.values()]

    def definition(self, place: Place) -> Definition | None:
        """The definition that stands at a place, if it is one of `specs/`."""
        module = self.modules.get(place.file.replace("/", "."))
        return module.definitions.get(place.name) if module else None

    def lookup(self, module: str, name: str) -> Place | None:
        """Where a name of a module has its definition; none where it isn't one of the tree."""
        seen = set()
        while module in self.modules and (module, name) not in seen:
            seen.add((module, name))
            known = self.modules[module]
            if name in known.definitions:
                return Place(file_of(module), name)
            owner = known.names.get(name, ("", ""))
            if owner[0] == module:
                return Place(file_of(module), owner[1], name)
            module, name = owner if owner[0] else (module, name)
        return self.of_code(module, name)

    def of_code(self, module: str, name: str) -> Place | None:
        """Where a name of a module that stands for code has its declaration: `CRATE.specs.declared.[FILE.]TYPE` or, with further parts,
        what such a type has."""
        parts = module.split(".")
        if parts[1:2] != ["specs"] or parts[2:3] not in (["declared"], ["contracts"]):
            return None
        if parts[-1] == "TheConstants" and (parts[0], name) in self.types:
            return Place(self.types[parts[0], name][0][0], name)
        for owner in (part for part in reversed(parts[3:]) if (parts[0], part) in self.types):
            path, kept = self.types[parts[0], owner][0]
            # what the kit derives of a type (`the_row`) stands at the type
            return Place(path, owner, name if name in kept.members else "")
        return None

    def is_constructor(self, place: Place) -> bool:
        """Whether a place is a constructor of a data type, or a variant of an enum."""
        it = self.definition(place)
        if it:
            return bool(place.member) and it.kind == "data"
        return bool(place.member) and place.member[:1].isupper()


def files(top: str, pattern: str) -> list[str]:
    """The files of all crates by a pattern, below crates/ and without their ending."""
    crates = os.path.join(top, "crates")
    found = glob.glob(os.path.join(crates, "*", *pattern.split("/")), recursive=True)
    return sorted(os.path.splitext(os.path.relpath(path, crates))[0].replace(os.sep, "/") for path in found)


def read(top: str, path: str, ending: str) -> str:
    """The text of a file below crates/."""
    with open(os.path.join(top, "crates", path + ending), encoding="utf-8") as file:
        return file.read()


def file_of(module: str) -> str:
    """The path of a module's file below crates/, without its ending."""
    return module.replace(".", "/")
