"""A file of definitions: what it brings in, and each definition with its comment and its whole text."""
import re
from typing import Iterator, NamedTuple

# the first line of a definition
DECLARED = re.compile(r"(?:unfoldable |abbrev |opaque |pub )*(?:(?P<kind>data|record) (?P<type>\S+)|(?P<name>\S+) :(?= |$))")
USE = re.compile(r"^ *(?:ghost |pub )*use (?:Rattle\.)?([\w.]+?)(?:\.\{([^}]*)\}| as (\w+))?;?\s*$", re.M)
HEADING = "-- ----"
# a field of a record, a constructor of a data type
MEMBER = re.compile(r" +(?:pub )?([^\s:]+) :(?= |$)")
TOKEN = re.compile(r'"(?:[^"\\\n]|\\.)*"|\s+|[(){}\[\],;.]|[^\s(){}\[\],;."]+|"')


class Definition(NamedTuple):
    """A definition as it stands in its file. `lines` are its own, whole; `comment` are those right above it, without their mark, and
    `note` those of paragraphs before that, which speak of several definitions."""
    module: str
    name: str
    kind: str
    note: tuple[str, ...]
    comment: tuple[str, ...]
    lines: tuple[str, ...]
    line: int
    section: str

    @property
    def text(self) -> str:
        """The whole text, with the comments inside it."""
        return "\n".join(self.lines)

    @property
    def body(self) -> str:
        """The text without comments."""
        return "".join(re.sub(r"(^|\s)--.*", "", line) + "\n" for line in self.lines)

    @property
    def size(self) -> int:
        """How many lines a reader reads, comments among them."""
        return len(self.note) + len(self.comment) + sum(1 for line in self.lines if line.strip())

    @property
    def members(self) -> tuple[str, ...]:
        """The fields of a record, the constructors of a data type."""
        if self.kind == "definition":
            return ()
        found = (MEMBER.match(line) for line in self.lines[1:])
        depth = min((len(line) - len(line.lstrip()) for line in self.lines[1:] if line.strip()), default=0)
        return tuple(it[1] for it in found if it and len(it[0]) - len(it[0].lstrip()) == depth)


class Module:
    """A file of definitions, or one of code with what it brings in for its clauses: what each name of it stands for."""

    def __init__(self, name: str, text: str, is_code: bool = False) -> None:
        self.name = name
        # what is brought in: by name the module and the name there; and modules under another name
        self.names: dict[str, tuple[str, str]] = {}
        self.aliases: dict[str, str] = {}
        # the comment at the head of the file
        self.head = head(text)
        self.definitions: dict[str, Definition] = {}
        # lines of code that belong to no definition, each with its number
        self.lost: list[tuple[int, str]] = []
        self.read_uses(text)
        self.read_definitions([] if is_code else text.splitlines())
        # the text of each definition without comments, and how many lines it has with its comment
        self.bodies = {name: it.body for name, it in self.definitions.items()}
        self.sizes = {name: it.size for name, it in self.definitions.items()}
        for it in self.definitions.values():
            # a constructor stands for its type
            self.names.update({member: (name, it.name) for member in it.members if it.kind == "data"})

    def read_uses(self, text: str) -> None:
        """Notes what is brought in."""
        for module, names, alias in USE.findall(text):
            if alias:
                self.aliases[alias] = module
            for part in names.split(","):
                first, _, second = part.strip().partition(" as ")
                if first:
                    self.names[second or first] = (module, first)

    def read_definitions(self, lines: list[str]) -> None:
        """Notes each definition, with the lines that it takes and the comment above it."""
        note: tuple[str, ...] = ()
        section, at = "", 0
        while at < len(lines):
            begin = at
            comment, at = comment_at(lines, at)
            if comment and comment[0].startswith(HEADING):
                section, note, comment = comment[0][len(HEADING):].strip(" -"), (), []
            said = tuple(line[2:].strip() for line in comment)
            if at < len(lines) and (start := DECLARED.match(lines[at])):
                end = end_of(lines, at)
                name = str(start["type"] or start["name"])
                self.names[name] = (self.name, name)
                self.definitions[name] = Definition(self.name, name, start["kind"] or "definition", note, said, tuple(trimmed(lines[at:end])),
                                                    at + 1, section)
                note, at = (), end
            elif at < len(lines) and lines[at].strip() and not comment_at(lines, at)[0]:
                if not lines[at].startswith(("use ", "pub use ", "pub mod ", "ghost use ")):
                    self.lost.append((at + 1, lines[at]))
                note, at = (), at + 1
            else:
                note += said if begin else ()
                at += at == begin

    def cited(self, text: str) -> Iterator[tuple[str, str]]:
        """What the words of a text stand for: a module and a name each, wherever they are bound."""
        for qualifier, word in re.findall(r"(?:(\w+)\.)?([^\s(){}\[\],;.]+)", text):
            if qualifier in self.aliases:
                yield self.aliases[qualifier], word
            elif qualifier and qualifier in self.names:
                yield self.names[qualifier]
            elif not qualifier and word in self.names:
                yield self.names[word]


def head(text: str) -> str:
    """The comment at the head of a file, on one line."""
    found = re.match(r"(?:--(?! ----).*\n)+", text)
    return " ".join(line[2:].strip() for line in found[0].splitlines()) if found else ""


def comment_at(lines: list[str], at: int) -> tuple[list[str], int]:
    """The comment lines from a place on, up to the next heading, or the heading that stands there; and the place behind them."""
    if at < len(lines) and lines[at].startswith(HEADING):
        return [lines[at]], at + 1
    end = at
    while end < len(lines) and lines[end].startswith("--") and not lines[end].startswith(HEADING):
        end += 1
    return lines[at:end], end


def end_of(lines: list[str], at: int) -> int:
    """The place behind the definition that begins at one: its clauses begin with its name, and their further lines are indented."""
    start = DECLARED.match(lines[at])
    name = (start["type"] or start["name"]) if start else ""
    end = at + 1
    while end < len(lines):
        following = next((line for line in lines[end:] if line.strip() and not line.startswith("--")), "")
        if lines[end].startswith("--") or not lines[end].strip():
            if not is_clause(following, name):
                break
        elif not is_clause(lines[end], name):
            break
        end += 1
    return end


def is_clause(line: str, name: str) -> bool:
    """Whether a line goes on with a definition."""
    return line.startswith((" ", "}", ")", "]", "unfolding ")) or re.match(rf"{re.escape(name)}(?=\s)(?! :)", line) is not None


def trimmed(lines: list[str]) -> list[str]:
    """The lines without empty ones at the end."""
    while lines and not lines[-1].strip():
        lines = lines[:-1]
    return lines


def tokens(text: str) -> Iterator[str]:
    """The words, marks, texts, spaces and comments of a text: together they are the text."""
    at = 0
    while at < len(text):
        found = TOKEN.match(text, at)
        token = found[0] if found else text[at]
        if token.startswith("--"):
            token = text[at:].split("\n", 1)[0]
        yield token
        at += len(token)
