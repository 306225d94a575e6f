"""The promises that README.md has in its table, and the contracts and definitions that its last column names."""
import re
from typing import NamedTuple

from wadrelwy.definitions import rust
from wadrelwy.definitions.tree import Place, Tree

HEADING = "## What is promised\n"
NAME = re.compile(r"`([^`]+)`")


class Named(NamedTuple):
    """A word of the last column in backquotes: where it stands, and the clause, if it is one."""
    text: str
    place: Place | None
    function: rust.Function | None = None
    clause: rust.Clause | None = None


class Promise(NamedTuple):
    """A row: the promise, what it asks for, the text of its last column, and what that names."""
    says: str
    asks: str
    carried: str
    names: tuple[Named, ...]


def cells(row: str) -> list[str]:
    """The cells of a row of a table."""
    return [cell.strip().replace("\\|", "|") for cell in re.split(r"(?<!\\)\|", row.strip().strip("|"))]


def rows(readme: str) -> list[list[str]]:
    """The rows of the table of promises."""
    _, _, behind = readme.partition(HEADING)
    table = re.search(r"(?:^\|.*\n)+", behind.split("\n## ")[0] + "\n", re.M)
    return [cells(row) for row in table[0].splitlines()[2:]] if table else []


class Reader:
    """Reads the last column: a word is a function, a clause of a function that was named, a definition of the last function's crate or the only
    one of its name, or a field of the record that was named last."""

    def __init__(self, tree: Tree) -> None:
        self.tree = tree
        # the functions that were named, the last first, each with its file
        self.seen: list[tuple[str, rust.Function]] = []
        # the definition that was named last
        self.last: Place | None = None

    def named(self, text: str) -> Named:
        """What a word names."""
        for file, it in self.seen:
            clause = next((clause for clause in it.clauses if clause.name == text), None)
            if clause:
                return Named(text, Place(file, it.full_name, text), it, clause)
        found = [(code.file, it) for code in self.tree.code.values() for it in code.functions if it.public and text == it.full_name]
        near = [it for it in found if it[0].split("/")[0] == self.crate()] or found
        if near:
            self.seen.insert(0, near[0])
            return Named(text, Place(near[0][0], near[0][1].full_name), near[0][1])
        place = self.definition(text)
        if place is None:
            return Named(text, self.field(text))
        self.last = place
        return Named(text, place)

    def crate(self) -> str:
        """The crate of the last function."""
        return self.seen[0][0].split("/")[0] if self.seen else ""

    def definition(self, text: str) -> Place | None:
        """A definition of this name: of the last function's crate, or the only one."""
        places = [Place(it.module.replace(".", "/"), it.name) for it in self.tree.definitions() if it.name == text]
        near = [it for it in places if it.file.split("/")[0] == self.crate()]
        return near[0] if near else places[0] if len(places) == 1 else None

    def field(self, text: str) -> Place | None:
        """A field of this name, where the definition that was named last is a record that has it."""
        record = self.tree.definition(self.last) if self.last else None
        return self.last._replace(member=text) if self.last and record and record.kind == "record" and text in record.members else None


def promises(tree: Tree, readme: str) -> list[Promise]:
    """The promises of the table, with what carries them."""
    reader = Reader(tree)
    return [Promise(says, asks, carried, tuple(map(reader.named, NAME.findall(carried)))) for says, asks, carried in rows(readme)]
