"""Where a page, a definition and a word of the book stand, and their HTML."""
import html
import posixpath
from urllib.parse import quote

from wadrelwy.definitions.tree import Place
from wadrelwy.definitions.words import Word


def page_of(file: str) -> str:
    """The page of a file below crates/, from the book's folder on."""
    return f"{file}.html"


def anchor(name: str, member: str = "") -> str:
    """The name of a definition, a contract or a member within its page."""
    return f"{name}.{member}" if member else name


def field_anchor(name: str) -> str:
    """Where the page of names begins with the types that have a field."""
    return f"field.{name}"


def href(place: Place, page: str) -> str:
    """The link from a page to a place."""
    target = page_of(place.file)
    way = "" if target == page else posixpath.relpath(target, posixpath.dirname(page) or ".")
    return f"{quote(way)}#{quote(anchor(place.name, place.member))}"


def link(place: Place, page: str, text: str) -> str:
    """A link with its text."""
    return f'<a href="{href(place, page)}">{html.escape(text)}</a>'


def word(it: Word, page: str, declares: dict[str, str] | None = None) -> str:
    """A word as HTML: a link where its definition is known, and of a field that several types have one to these types. `declares` has the
    anchors of words that are declared here, each taken once."""
    text = html.escape(it.text)
    if it.kind == "space":
        return text
    if declares and it.text in declares and it.kind in ("field", "name"):
        return f'<b id="{html.escape(declares.pop(it.text))}">{text}</b>'
    if it.place:
        return f'<a href="{href(it.place, page)}">{text}</a>'
    if it.kind == "field":
        up = "../" * page.count("/")
        return f'<a class="field" title="{html.escape(it.note)}" href="{up}names.html#{quote(field_anchor(it.text))}">{text}</a>'
    note = f' title="{html.escape(it.note)}"' if it.note else ""
    if it.kind in ("unknown", "comment", "text", "outside"):
        return f'<span class="{it.kind}"{note}>{text}</span>'
    return text
