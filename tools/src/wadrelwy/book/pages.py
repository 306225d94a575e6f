"""The pages of the book."""
import html
import os
import re
from typing import Callable, Iterable

from wadrelwy import Fault
from wadrelwy.book import links
from wadrelwy.book.promises import Named, Promise, promises
from wadrelwy.definitions import rust, words
from wadrelwy.definitions.antt import Definition, tokens
from wadrelwy.definitions.tree import Code, Place, Tree, file_of
from wadrelwy.definitions.words import Word

STYLE = os.path.join(os.path.dirname(os.path.abspath(__file__)), "book.css")
QUOTED = re.compile(r"`([^`]+)`")


class Book:
    """The definitions and contracts of a tree, with what each cites and what cites it."""

    def __init__(self, top: str) -> None:
        self.tree = Tree(top)
        if not self.tree.modules:
            raise Fault(f"{top} has no definitions (crates/*/specs/*.antt)")
        readme = os.path.join(top, "README.md")
        self.promises = promises(self.tree, text_of(readme) if os.path.exists(readme) else "")
        self.definitions = {Place(file_of(it.module), it.name): it for it in self.tree.definitions()}
        self.contracts = {Place(code.file, it.full_name): (code, it) for code in self.tree.code.values()
                          for it in code.functions if it.public and it.clauses}
        # the words of each definition and clause, and by its place who cites a definition
        self.words: dict[Place, list[Word]] = {place: words.of_definition(self.tree, it) for place, it in self.definitions.items()}
        self.clauses: dict[Place, list[list[Word]]] = {place: [words.of_clause(self.tree, code, it, clause) for clause in it.clauses]
                                                       for place, (code, it) in self.contracts.items()}
        self.users: dict[Place, set[Place]] = {}
        for place, pieces in [*self.words.items(), *((place, [it for part in parts for it in part]) for place, parts in self.clauses.items())]:
            for target in {it.place._replace(member="") for it in pieces if it.place} - {place}:
                self.users.setdefault(target, set()).add(place)

    def unknown(self) -> list[tuple[Place, str]]:
        """The words that nothing is known of, each with where it stands."""
        of_clauses = {place: [it for part in parts for it in part] for place, parts in self.clauses.items()}
        found = [(place, it.text) for kept in (self.words, of_clauses) for place, pieces in kept.items() for it in pieces if it.kind == "unknown"]
        return sorted(found) + [(Place("README", it.says), name.text) for it in self.promises for name in it.names if not name.place]

    def lost(self) -> list[tuple[str, int, str]]:
        """The lines of files of definitions that belong to no definition: the file, the line's number, and the line."""
        return [(file_of(name), number, line) for name, module in self.tree.modules.items() for number, line in module.lost]


def text_of(path: str) -> str:
    """The text of a file."""
    with open(path, encoding="utf-8") as file:
        return file.read()


def prose(text: str, link: Callable[[str], str] | None = None) -> str:
    """A line of prose; what stands in backquotes is code, and `link` may make a link of it."""
    parts = QUOTED.split(text)
    return "".join(html.escape(part) if number % 2 == 0 else f"<code>{link(part) if link else html.escape(part)}</code>"
                   for number, part in enumerate(parts))


def page(title: str, way: str, body: Iterable[str]) -> str:
    """A whole page, which stands `way` below the book's folder."""
    up = "../" * way.count("/")
    return "\n".join(["<!doctype html>", '<html lang="en">', '<meta charset="utf-8">', '<meta name="viewport" content="width=device-width">',
                      f"<title>{html.escape(title)}</title>", f'<link rel="stylesheet" href="{up}book.css">',
                      f'<nav><a href="{up}index.html">The book</a> <a href="{up}index.html#crates">Crates</a> <a href="{up}names.html">Names</a>'
                      f' <a href="{up}unknown.html">Words not found</a></nav>', f"<h1>{html.escape(title)}</h1>", *body, "</html>", ""])


def used_by(book: Book, place: Place, way: str) -> list[str]:
    """The line that says which definitions and contracts cite a place."""
    found = sorted(book.users.get(place, ()), key=lambda it: (it.name, it.file))
    if not found:
        return ['<p class="users">No definition or contract cites it.</p>'] if place in book.definitions else []
    return [f'<p class="users">Cited by {", ".join(links.link(it, way, it.name) + crate_of(it, place) for it in found)}.</p>']


def crate_of(it: Place, place: Place) -> str:
    """The crate of a place, where it is another one."""
    crate = it.file.split("/")[0]
    return "" if crate == place.file.split("/")[0] else f" <small>({html.escape(crate)})</small>"


def definition(book: Book, place: Place, it: Definition, way: str) -> list[str]:
    """A definition with its comment, its text and those that cite it."""
    declares = {member: links.anchor(it.name, member) for member in it.members}
    text = "".join(links.word(word, way, declares) for word in book.words[place]).rstrip("\n")
    note = [f'<p class="note">{prose(" ".join(it.note))}</p>'] if it.note else []
    said = [f"<p>{prose(' '.join(it.comment))}</p>"] if it.comment else []
    return [*note, f'<section id="{html.escape(it.name)}">', f"<h3>{html.escape(it.name)} <small>line {it.line}</small></h3>", *said,
            f"<pre>{text}</pre>", *used_by(book, place, way), "</section>"]


def module_page(book: Book, name: str) -> tuple[str, str]:
    """The page of a file of definitions."""
    module, file = book.tree.modules[name], file_of(name)
    way, section = links.page_of(file), ""
    body = [f'<p class="file">crates/{html.escape(file)}.antt</p>', f"<p>{prose(module.head)}</p>"]
    for it in module.definitions.values():
        if it.section != section:
            section = it.section
            body.append(f"<h2>{html.escape(section)}</h2>")
        body += definition(book, Place(file, it.name), it, way)
    return way, page(f"{file}.antt", way, body)


def type_words(book: Book, code: Code, text: str, own: str) -> list[Word]:
    """The words of code, of which those that are types of the crate, or of one crate alone, have a place."""
    found = []
    crate = code.file.split("/")[0]
    for token in re.split(r"(//[^\n]*|\w+)", text):
        places = book.tree.types.get((crate, token)) or [it for name in book.tree.crates for it in book.tree.types.get((name, token), [])]
        known = Place(places[0][0], token) if len({path for path, _ in places}) == 1 and token != own else None
        found.append(Word(token, "comment" if token.startswith("//") else "name" if known else "code", known))
    return found


def contract(book: Book, place: Place, code: Code, it: rust.Function, way: str) -> list[str]:
    """A function with its documentation and each clause."""
    head = it.header
    for clause in reversed(it.clauses):
        at = head.rindex(clause.text)
        head = head[:head.rindex(clause.kind, 0, at)].rstrip()
    clauses, named = [], {""}
    for number, clause in enumerate(it.clauses):
        text = "".join(links.word(word, way) for word in book.clauses[place][number])
        name = f" {clause.name}" if clause.name else ""
        # of two clauses of one name the first has the mark
        mark = f' id="{html.escape(links.anchor(it.full_name, clause.name))}"' if clause.name not in named else ""
        named.add(clause.name)
        clauses.append(f"<pre{mark}>{clause.kind}{html.escape(name)} {{{text}}}</pre>")
    return [f'<section id="{html.escape(it.full_name)}">', f"<h3>{html.escape(it.full_name)} <small>line {it.line}</small></h3>",
            f"<pre>{''.join(links.word(word, way) for word in type_words(book, code, head, ''))}</pre>", *clauses, *used_by(book, place, way), "</section>"]


def code_page(book: Book, code: Code) -> tuple[str, str] | None:
    """The page of a file of code: its types, and its contracts. None where it has neither."""
    way = links.page_of(code.file)
    body = [f'<p class="file">crates/{html.escape(code.file)}.rt</p>']
    for kept in code.declared:
        declares = {member: links.anchor(kept.name, member) for member in kept.members}
        text = "".join(declaring(word, way, declares) for word in type_words(book, code, kept.text, kept.name))
        body += [f'<section id="{html.escape(kept.name)}">', f"<h3>{kept.kind} {html.escape(kept.name)} <small>line {kept.line}</small></h3>",
                 f"<pre>{text}</pre>", *used_by(book, Place(code.file, kept.name), way), "</section>"]
    for it in code.functions:
        place = Place(code.file, it.full_name)
        if place in book.contracts and book.contracts[place][1] is it:
            body += contract(book, place, code, it, way)
    return (way, page(f"{code.file}.rt", way, body)) if len(body) > 1 else None


def declaring(word: Word, way: str, declares: dict[str, str]) -> str:
    """A word of a type's text, with the mark of a field or variant where it is declared."""
    mark = declares.pop(word.text, "") if word.kind != "comment" else ""
    text = links.word(word, way)
    return f'<b id="{html.escape(mark)}">{text}</b>' if mark else text


def promise(book: Book, it: Promise) -> list[str]:
    """A promise with each clause that carries it, word by word."""
    places = {name.text: name.place for name in it.names}

    def linked(text: str) -> str:
        place = places.get(text)
        return links.link(place, "index.html", text) if place else f'<span class="unknown">{html.escape(text)}</span>'

    body = ["<section>", f"<h3>{prose(it.says)}</h3>", f"<p>It asks for: {prose(it.asks)}.</p>", f"<p>It is carried by: {prose(it.carried, linked)}.</p>"]
    for name in it.names:
        body += carried(book, name)
    return [*body, "</section>"]


def carried(book: Book, name: Named) -> list[str]:
    """The text of what carries a promise: a clause, a law, or a definition."""
    if name.clause and name.function and name.place:
        whole = name.place._replace(member="")
        at = book.contracts[whole][1].clauses.index(name.clause)
        text = "".join(links.word(word, "index.html") for word in book.clauses[whole][at])
        return [f"<pre>{html.escape(name.function.full_name)}: {name.clause.kind} {html.escape(name.clause.name)} {{{text}}}</pre>"]
    if name.function and name.place in book.clauses and not any(clause.name for clause in name.function.clauses):
        parts = book.clauses[name.place]
        return [f"<pre>{html.escape(name.text)}: ensures {{{''.join(links.word(word, 'index.html') for word in part)}}}</pre>" for part in parts]
    if name.place in book.words:
        return [f"<pre>{''.join(links.word(word, 'index.html') for word in book.words[name.place]).rstrip()}</pre>"]
    return []


def crate_list(book: Book) -> list[str]:
    """Each crate with what it is for and its pages."""
    body = []
    for crate in sorted(book.tree.crates):
        root = next((f"crates/{crate}/src/{name}.rt" for name in ("lib", "main") if f"{crate}/src/{name}" in book.tree.code), "")
        said = rust.paragraphs(text_of(os.path.join(book.tree.top, root))) if root else []
        files = [file for file in sorted([*map(file_of, book.tree.modules), *book.tree.code]) if file.split("/")[0] == crate and has_page(book, file)]
        pages = ", ".join(f'<a href="{links.page_of(file)}">{html.escape(file.split("/", 1)[1])}</a>' for file in files)
        body.append(f'<li id="{crate}"><b>{crate}</b>: {prose(rust.first_sentence(said[0]) if said else "")} <small>{pages}</small></li>')
    return ["<ul>", *body, "</ul>"]


def has_page(book: Book, file: str) -> bool:
    """Whether a file has something to show."""
    if file in book.tree.code:
        return bool(book.tree.code[file].declared) or any(place.file == file for place in book.contracts)
    return bool(book.tree.modules[file.replace("/", ".")].definitions)


def index(book: Book) -> str:
    """The first page."""
    count = f"{len(book.definitions):,} definitions, {len(book.contracts):,} contracts"
    body = ["<p>What is promised of the machine, and each word of it by a click: the promises of README.md with the clauses that carry them, and "
            f"behind each word its definition. {count}, made from <code>crates/*/specs</code> and <code>crates/*/src</code>.</p>",
            "<p>A word with a link is defined in this tree; a field that several types have, underlined by dots, has a link to all of these. <span class=\"outside\">A word in this colour</span> is of the kit or the logic, or a lemma; "
            "<span class=\"unknown\">one in this colour</span> wasn't found.</p>", '<h2 id="promises">What is promised</h2>']
    for it in book.promises:
        body += promise(book, it)
    return page("The definitions, word by word", "index.html", [*body, '<h2 id="crates">Crates</h2>', *crate_list(book)])


def names(book: Book) -> str:
    """All definitions, contracts, types and fields by their names."""
    places = [*book.definitions, *book.contracts]
    places += [Place(code.file, it.name) for code in book.tree.code.values() for it in code.declared]
    places += [place for found in book.tree.fields.values() for place in found]
    rows = sorted({(it.member or it.name, it) for it in places}, key=lambda row: (row[0].lower(), row))
    body, marked = [], set()
    for name, it in rows:
        first = it.member and name not in marked
        marked.update([name] if it.member else [])
        mark = f' id="{html.escape(links.field_anchor(name))}"' if first else ""
        owner = f"of {html.escape(it.name)}, " if it.member else ""
        body.append(f"<li{mark}>{links.link(it, 'names.html', name)} <small>{owner}{html.escape(it.file)}</small></li>")
    return page("Names", "names.html", ["<ul>", *body, "</ul>"])


def unknown(book: Book) -> str:
    """The words that weren't found."""
    rows = [f'<li><span class="unknown">{html.escape(text)}</span> in {links.link(place, "unknown.html", place.name)}</li>' if place.file != "README" else
            f'<li><span class="unknown">{html.escape(text)}</span> in README.md: {html.escape(place.name)}</li>' for place, text in book.unknown()]
    return page("Words not found", "unknown.html", [f"<p>{len(rows)} found.</p>", "<ul>", *rows, "</ul>"])


def pages(book: Book) -> dict[str, str]:
    """All pages, by where they stand."""
    found = dict(module_page(book, name) for name, module in book.tree.modules.items() if module.definitions)
    found.update(it for it in (code_page(book, code) for code in book.tree.code.values()) if it)
    return {**found, "index.html": index(book), "names.html": names(book), "unknown.html": unknown(book), "book.css": text_of(STYLE)}
