"""What each word of a definition or of a contract stands for."""
import re
from typing import Callable, Iterable, Iterator, NamedTuple

from wadrelwy.definitions import rust
from wadrelwy.definitions.antt import Definition, Module, tokens
from wadrelwy.definitions.tree import Code, Place, Tree, file_of

KEYWORDS = {"let", "in", "if", "then", "else", "record", "data", "where", "Type", "abbrev", "pub", "unfoldable", "opaque", "λ", "→", "=", ":", "|", "_",
            "use", "as", "unfolding", "by", "×", "ghost", "requires", "ensures", "Model"}
# words of contracts: a value now, before a call and after it; and what is answered
TIMES = {"now", "old", "new"}
RUST = {"fn", "impl", "trait", "for", "mut", "dyn", "self", "Self", "result", "u8", "u16", "u32", "u64", "u128", "usize", "i8", "i32", "i64", "bool", "str",
        "Option", "Vec", "Result", "Box", "char", "static", "const", "crate", "where", "unsafe", "Global", "String"}
# words of the logic, which nothing has to bring in
BUILT_IN = {"Unit", "tt", "absurd"}
CONSTRUCTORS = {"zero", "suc", "true", "false", "refl", "inl", "inr"}
# whether a word of a pattern stands for a constructor
Test = Callable[[str], bool]
NUMBER = re.compile(r"0x[0-9A-Fa-f_]+|0b[01_]+|\d[\d_]*")


class Word(NamedTuple):
    """A piece of a text: what it is, where its definition stands if that is known, and what else is to be said of it."""
    text: str
    kind: str
    place: Place | None = None
    note: str = ""


class Scope(NamedTuple):
    """What the words of a part of a text may stand for: of a file, and of the part alone."""
    tree: Tree
    module: Module
    # the crate of the file
    crate: str
    # the words that are bound in this part
    bound: frozenset[str]
    # the fields of the definition itself, or what the type of a contract has
    own: dict[str, Place]


def solid(parts: list[str]) -> list[int]:
    """The places of the tokens that are neither space nor comment."""
    return [at for at, part in enumerate(parts) if part.strip() and not part.startswith("--")]


def is_word(token: str) -> bool:
    """Whether a token is a name or a number, and no mark or operator."""
    return any(character.isalnum() or character == "_" for character in token) and not token.startswith(('"', "--"))


def bound_in(parts: list[str], is_constructor: Test) -> set[str]:
    """The words that a part of a definition binds: of functions, types and `let`s."""
    kept = [parts[at] for at in solid(parts)]
    found: set[str] = set()
    for at, token in enumerate(kept):
        if token == "λ":
            found.update(until(kept, at + 1, ".", is_constructor))
        elif token == "let":
            found.update(until(kept, at + 1, "=", is_constructor))
        elif token in "({":
            end = at + 1
            while end < len(kept) and is_word(kept[end]):
                end += 1
            if end > at + 1 and kept[end:end + 1] == [":"]:
                found.update(kept[at + 1:end])
    return found


def until(kept: list[str], at: int, mark: str, is_constructor: Test) -> Iterator[str]:
    """The words of a pattern that goes up to a mark."""
    while at < len(kept) and kept[at] != mark:
        if is_word(kept[at]) and kept[at - 1] != "." and not NUMBER.fullmatch(kept[at]) and not is_constructor(kept[at]):
            yield kept[at]
        at += 1


def parts_of(it: Definition) -> list[str]:
    """The text of a definition in parts: what it declares, and each of its clauses. Together they are the text."""
    found: list[list[str]] = [[]]
    for line in it.lines:
        if it.kind == "definition" and found[-1] and re.match(rf"{re.escape(it.name)}\s", line):
            found.append([])
        found[-1].append(line)
    return ["".join(line + "\n" for line in part) for part in found]


def constructors(tree: Tree, module: Module) -> Test:
    """The test whether a word of a pattern stands for a constructor, and so binds nothing."""
    def test(word: str) -> bool:
        if word not in module.names:
            return word in module.aliases
        place = tree.lookup(*brought(module, word))
        return tree.is_constructor(place) if place else word[:1].isupper() or word in CONSTRUCTORS
    return test


def brought(module: Module, word: str) -> tuple[str, str]:
    """The module of a word and its name there; a constructor of this module stands for itself."""
    there, name = module.names[word]
    return (there, word) if there == module.name else (there, name)


def of_definition(tree: Tree, it: Definition) -> list[Word]:
    """The words of a definition; their texts together are its text."""
    module = tree.modules[it.module]
    is_constructor = constructors(tree, module)
    own = {member: Place(file_of(it.module), it.name, member) for member in it.members}
    found: list[Word] = []
    for number, part in enumerate(parts_of(it)):
        pieces = list(tokens(part))
        bound = bound_in(pieces, is_constructor)
        kept = [pieces[at] for at in solid(pieces)]
        if number:
            bound.update(until(kept, 1, "=", is_constructor))
        found += of_tokens(pieces, Scope(tree, module, it.module.split(".")[0], frozenset(bound - {it.name}), own))
    return found


def of_tokens(pieces: list[str], scope: Scope) -> Iterator[Word]:
    """What each token of a part stands for."""
    kept = solid(pieces)
    index = {at: number for number, at in enumerate(kept)}
    depth = 0
    for at, piece in enumerate(pieces):
        if at not in index:
            yield Word(piece, "comment" if piece.strip() else "space")
            continue
        number = index[at]
        depth += (piece == "{") - (piece == "}")
        before = pieces[kept[number - 1]] if number else ""
        after = pieces[kept[number + 1]] if number + 1 < len(kept) else ""
        if at >= 2 and pieces[at - 1] == "." and is_word(piece) and (is_word(pieces[at - 2]) or pieces[at - 2] in ")}]"):
            yield projected(piece, pieces, at, scope)
        elif depth and after == "=" and before in ("{", ";"):
            yield field(piece, scope)
        else:
            yield simple(piece, scope)


def projected(piece: str, pieces: list[str], at: int, scope: Scope) -> Word:
    """A word behind a point: of another module, or a field."""
    owner = pieces[at - 2]
    if owner in scope.module.aliases and owner not in scope.bound:
        return named(piece, scope.module.aliases[owner], piece, scope)
    if piece in TIMES or NUMBER.fullmatch(piece):
        return Word(piece, "keyword")
    return field(piece, scope)


def field(piece: str, scope: Scope) -> Word:
    """A field: of the only type that has it, or of one of several, which then are told."""
    if piece in scope.own:
        return Word(piece, "field", scope.own[piece])
    places = scope.tree.fields.get(piece, [])
    if len(places) == 1:
        return Word(piece, "field", places[0])
    if places:
        return Word(piece, "field", None, "a field of " + ", ".join(sorted({place.name for place in places})))
    return Word(piece, "unknown")


def simple(piece: str, scope: Scope) -> Word:
    """A word that stands alone."""
    if piece.startswith('"') or NUMBER.fullmatch(piece):
        return Word(piece, "text" if piece.startswith('"') else "number")
    if piece in KEYWORDS or piece in "(){}[],;.":
        return Word(piece, "keyword")
    if piece in scope.bound:
        return Word(piece, "local")
    if piece in scope.own:
        return Word(piece, "field", scope.own[piece])
    if piece in scope.module.names:
        return named(piece, *brought(scope.module, piece), scope)
    if piece in BUILT_IN:
        return Word(piece, "outside", None, f"{piece} of the logic")
    if piece in scope.module.aliases:
        return Word(piece, "outside", None, f"the module {scope.module.aliases[piece]}")
    return operator(piece, scope)


def operator(piece: str, scope: Scope) -> Word:
    """An operator, or a word that nothing brings in."""
    for name in (f"◌{piece}◌", f"◌{piece}", f"{piece}◌"):
        if name in scope.module.names:
            return named(piece, *scope.module.names[name], scope)
    kind = scope.tree.types.get((scope.crate, piece))
    if kind:
        return Word(piece, "name", Place(kind[0][0], piece))
    return Word(piece, "unknown" if is_word(piece) else "operator")


def named(piece: str, module: str, name: str, scope: Scope) -> Word:
    """A name that stands in a module: with its place, or outside the tree."""
    place = scope.tree.lookup(module, name)
    if place:
        return Word(piece, "name", place)
    if module.split(".")[0] not in scope.tree.crates:
        return Word(piece, "outside", None, f"{name} of the kit's {module}")
    return Word(piece, "outside" if ".proofs." in module else "unknown", None, f"{name} of {module}")


def of_clause(tree: Tree, code: Code, it: rust.Function, clause: rust.Clause) -> list[Word]:
    """The words of a clause of a contract."""
    pieces = list(tokens(clause.text))
    bound = bound_in(pieces, constructors(tree, code.module)) | set(re.findall(r"(\w+)(?=:)", it.parameters)) | RUST | set(generics(it.header))
    return list(of_tokens(pieces, Scope(tree, code.module, code.file.split("/")[0], frozenset(bound), ghosts(tree, code, it))))


def generics(header: str) -> Iterable[str]:
    """The types that a function is made for."""
    found = re.search(r"fn \w+<([^>(]*)>", header)
    return re.findall(r"\b[A-Z]\w*(?=[:,>]|$)", found[1]) if found else ()


def ghosts(tree: Tree, code: Code, it: rust.Function) -> dict[str, Place]:
    """What the clauses of a function may ask of its type: the ghosts of the types in its file."""
    return {member: Place(code.file, kept.name, member) for kept in code.declared if kept.kind == "trait" or kept.name == it.owner
            for member in kept.members}
