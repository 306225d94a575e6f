"""A file of code: its functions with their contracts, and the types that it declares."""
import re
from typing import Iterator, NamedTuple

FUNCTION = re.compile(r"(?P<pub>pub )?fn (?P<name>\w+)")
OUTER = re.compile(r"^(?:impl(?:<[^{\n]*?>)? (?P<type>\w+)[^{\n]*?|pub trait (?P<trait>\w+)[^{\n]*)\{$")
CONDITION = re.compile(r"\s*(requires|ensures)\s*([a-z_0-9]+)?\s*\{")
TYPE = re.compile(r"^(?:pub(?:\([^)]*\))? )?(struct|enum|trait|const|static) (\w+)", re.M)
LEADING = re.compile(r"\s*(///|//|#\[)")


class Clause(NamedTuple):
    """A condition or a promise of a function: its name, which may be empty, and its text."""
    kind: str
    name: str
    text: str


class Function(NamedTuple):
    """A function with its contract. `owner` is the type or trait that has it, `header` its text up to its body, with its documentation."""
    name: str
    owner: str
    public: bool
    line: int
    parameters: str
    answers: str
    says: str
    header: str
    clauses: tuple[Clause, ...]

    @property
    def full_name(self) -> str:
        """Its name with that of its owner."""
        return f"{self.owner}::{self.name}" if self.owner else self.name


class Declared(NamedTuple):
    """A type of the code: its name, its text, and its fields or variants."""
    name: str
    kind: str
    line: int
    text: str
    members: tuple[str, ...]


def paragraphs(text: str) -> list[str]:
    """The paragraphs of the documentation at the head of a file, each on one line."""
    head = re.match(r"(?://!.*\n)*", text)
    lines = [line[3:].strip() for line in head[0].splitlines()] if head else []
    return [" ".join(part.split("\n")) for part in re.split(r"\n{2,}", "\n".join(lines)) if part]


def first_sentence(text: str) -> str:
    """The first sentence of a paragraph."""
    return re.split(r"(?<=\.) (?=[A-Z`])", text)[0]


def closing(text: str, at: int, pair: str) -> int:
    """The place behind the bracket that closes the one at a place."""
    depth = 0
    for place in range(at, len(text)):
        depth += (text[place] == pair[0]) - (text[place] == pair[1])
        if depth == 0:
            return place + 1
    raise ValueError("a bracket stays open")


def plain(text: str) -> str:
    """A text on one line, without the space that a broken line leaves inside brackets."""
    return re.sub(r",? \)", ")", re.sub(r"\( ", "(", " ".join(text.split())))


def contract(text: str, at: int) -> tuple[tuple[Clause, ...], int]:
    """The clauses that stand from a place on, and the place behind them."""
    clauses = []
    while found := CONDITION.match(text, at):
        at = closing(text, found.end() - 1, "{}")
        clauses.append(Clause(found[1], found[2] or "", text[found.end():at - 1]))
    return tuple(clauses), at


def leading(text: str, at: int) -> int:
    """The place of the first line of what stands right above a place: documentation, comments, attributes."""
    begin = text.rfind("\n", 0, at) + 1
    while begin:
        above = text.rfind("\n", 0, begin - 1) + 1
        if not LEADING.match(text[above:begin]):
            break
        begin = above
    return begin


def documentation(lines: list[str]) -> str:
    """The first sentence of the documentation that ends these lines."""
    said: list[str] = []
    for line in reversed(lines):
        if line.lstrip().startswith("///"):
            said.append(line.lstrip()[3:].strip())
        elif not line.lstrip().startswith("#["):
            break
    return first_sentence(" ".join(reversed(said)))


def owner_at(line: str, owner: tuple[str, bool] | None) -> tuple[str, bool] | None:
    """Whose functions follow this line: a type's, a trait's (then true), or nobody's."""
    outer = OUTER.match(line)
    if outer:
        return None if re.search(r" for \w", line) else (outer["type"] or outer["trait"], bool(outer["trait"]))
    return None if line.startswith("}") else owner


def function(text: str, found: re.Match[str], owner: tuple[str, bool] | None) -> Function:
    """The function that begins at a place."""
    begin = text.index("(", found.end())
    end = closing(text, begin, "()")
    result = re.compile(r" -> (.+?)(?= ?\{?$|;$)", re.M).match(text, end)
    at = result.end() if result else end
    clauses, behind = contract(text, at)
    first = leading(text, found.start())
    says = documentation(text[:found.start()].rsplit("\n", 1)[0].splitlines())
    return Function(found["name"], owner[0] if owner else "", bool(found["pub"] or owner and owner[1]), text.count("\n", 0, found.start()) + 1,
                    text[begin:end], result[1] if result else "", says, text[first:behind].rstrip(), clauses)


def functions(text: str) -> Iterator[Function]:
    """The functions of a file in their order: free ones, and those of types and traits, without those that implement a trait."""
    owner, at, implements = None, 0, False
    for line in text.splitlines(keepends=True):
        if not line.startswith(" "):
            owner = owner_at(line.rstrip("\n"), owner)
            implements = bool(OUTER.match(line.rstrip("\n")) and not owner) or implements and not line.startswith("}")
        found = FUNCTION.match(text, at + len(line) - len(line.lstrip()))
        if found and (not line.startswith(" ") or line.startswith("    ") and owner and not implements):
            yield function(text, found, owner if line.startswith(" ") else None)
        at += len(line)


def declared(text: str) -> Iterator[Declared]:
    """The structs, enums, traits and constants of a file, each whole."""
    for found in TYPE.finditer(text):
        brace, semicolon = text.find("{", found.end()), text.find(";", found.end())
        if found[1] in ("const", "static"):
            last = re.compile(r";$", re.M).search(text, found.end())
            brace, end = -1, last.end() if last else len(text)
        else:
            end = semicolon + 1 if 0 <= semicolon < brace or brace < 0 else closing(text, brace, "{}")
        whole = text[leading(text, found.start()):end]
        inner = text[brace:end] if brace >= 0 else ""
        member = r"^    ghost (\w+):" if found[1] == "trait" else r"^    (?:pub(?:\([^)]*\))? )?(?:ghost )?(\w+)(?=[:,({ ]|$)"
        members = re.findall(member, inner, re.M)
        yield Declared(found[2], found[1], text.count("\n", 0, found.start()) + 1, whole, tuple(members))
