"""The layout of definitions and proofs: declarations by their indentation, clauses, and the parts of a type or a term by its brackets."""
import itertools
import re
from typing import Iterator

SIGNATURE = re.compile(r"( *)(?:unfoldable |abbrev |pub )*([^\s:(){}]+) : (.*)", re.S)
RECORD = re.compile(r" *(?:pub )?record (\S+)")


def lines_of(text: str) -> list[str]:
    """The lines without comments and without those that are empty."""
    bare = (re.sub(r"(^|\s)--.*", "", line).rstrip() for line in text.splitlines())
    return [line for line in bare if line]


def indent(line: str) -> int:
    """How far in a line begins."""
    return len(line) - len(line.lstrip())


def items(text: str) -> list[tuple[str, str, list[str]]]:
    """Each declaration: its name, its type, and the clauses of it, with what stands further in behind them."""
    lines, found = lines_of(text), []
    for at, line in enumerate(lines):
        if line.split()[0] in ("use", "open", "let", "module"):
            continue
        blocks = grouped(lines, at, indent(line))
        start = SIGNATURE.match(line) and SIGNATURE.match(next(blocks))
        if start and line.split()[0] not in ("use", "open", "let", "module"):
            found.append((start[2], start[3], own_clauses(start[2], blocks)))
    return found


def own_clauses(name: str, blocks: Iterator[str]) -> list[str]:
    """The clauses that follow a declaration and begin with its name, each without it."""
    own = itertools.takewhile(lambda block: block.split(None, 1)[0] == name, blocks)
    return [block.lstrip()[len(name):] for block in own]


def records(text: str) -> Iterator[tuple[str, dict[str, str]]]:
    """Each record with the types of its fields."""
    lines = lines_of(text)
    for at, line in enumerate(lines):
        start = RECORD.match(line)
        if start and line.endswith(" where"):
            inner = next(grouped(lines, at, indent(line))).partition("\n")[2]
            yield start[1], {name: kind for name, kind, _ in items(inner)}


def grouped(lines: list[str], at: int, depth: int) -> Iterator[str]:
    """The lines from a place on, each with those further in and the closing brackets behind it, as long as none stands less far in."""
    block = lines[at]
    for line in lines[at + 1:]:
        if indent(line) > depth or indent(line) == depth and line.lstrip()[0] in ")}]":
            block += "\n" + line
            continue
        yield block
        if indent(line) < depth:
            return
        block = line
    yield block


def split(text: str, mark: str) -> list[str]:
    """A text, cut at each mark that stands in no brackets."""
    parts, depth, last = [], 0, 0
    for it in re.finditer(rf"[({{\[)}}\]]|{re.escape(mark)}", text):
        depth += (it[0] in "({[") - (it[0] in ")}]")
        if depth == 0 and it[0] == mark:
            parts.append(text[last:it.start()])
            last = it.end()
    return parts + [text[last:]]


def atoms(text: str) -> list[tuple[str, int]]:
    """The words and brackets of an application, in their order, with where each begins."""
    found: list[tuple[str, int]] = []
    begin: int | None = None
    depth = 0
    for it in re.finditer(r"[({\[)}\]]|[^\s({\[)}\]]+|\s+", text):
        if depth == 0 and it[0].isspace() and begin is not None:
            found.append((text[begin:it.start()], begin))
            begin = None
        depth += (it[0] in "({[") - (it[0] in ")}]")
        if depth < 0:
            break
        if begin is None and not it[0].isspace():
            begin = it.start()
    end = it.start() if depth < 0 else len(text)
    return found if begin is None else [*found, (text[begin:end], begin)]


def words(text: str) -> list[str]:
    """The names in a text; of `a.b` the first."""
    return re.findall(r"(?<![\w.'-])[^\W\d][\w'-]*", text)


def inside(text: str, at: int) -> str:
    """What stands in the brackets that are open at a place."""
    depth = 0
    for end in range(at, len(text)):
        depth += (text[end] in "({[") - (text[end] in ")}]")
        if depth < 0:
            return text[at:end]
    return text[at:]
