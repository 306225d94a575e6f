"""The definitions and contracts as linked pages: from a promise to each word that it cites by a click.

    wadrelwy book -o FOLDER [--tree FOLDER]

Makes plain HTML, without scripts, of the promises of README.md, of `crates/*/specs/*.antt` and of the contracts of `crates/*/src/*.rt`. Begin with
FOLDER/index.html. Each definition stands whole, with its comment, its crate and file; each of its words is a link to its own definition, and below it
stands who cites it. A word of the kit or the logic has no page here and is told so; one that isn't found is shown as such, listed, and counted in what
the command says. FOLDER must be new, empty, or such a book, which then is made anew. A file with a line that belongs to no definition is refused, so that no book lacks
a part of one."""
import os
from argparse import ArgumentParser, Namespace

from wadrelwy import Fault, statuses
from wadrelwy.book.pages import Book, pages

TREE = os.path.dirname(os.path.dirname(os.path.dirname(os.path.dirname(os.path.dirname(os.path.realpath(__file__))))))
# every book has it
MARK = "book.css"


def words(parser: ArgumentParser) -> None:
    parser.add_argument("-o", dest="folder", metavar="FOLDER", required=True, help="where the pages go")
    parser.add_argument("--tree", metavar="FOLDER", default=TREE, help="the tree with crates/ (else the one that this command is of)")


def write(folder: str, made: dict[str, str]) -> None:
    """Writes the pages, and removes those of an older book."""
    if os.path.isdir(folder) and os.listdir(folder) and not os.path.exists(os.path.join(folder, MARK)):
        raise Fault(f"{folder} has files that are no book; name a new folder")
    for place, _, names in os.walk(folder):
        for name in names:
            path = os.path.join(place, name)
            if name.endswith(".html") and os.path.relpath(path, folder) not in made:
                os.remove(path)
    # the style sheet first, so that a book that isn't whole is known as one
    for way in sorted(made, key=lambda it: (it != MARK, it)):
        path = os.path.join(folder, way)
        os.makedirs(os.path.dirname(path) or ".", exist_ok=True)
        with open(path, "w", encoding="utf-8") as file:
            file.write(made[way])


def main(asked: Namespace) -> int:
    book = Book(asked.tree)
    for file, number, line in book.lost():
        raise Fault(f"crates/{file}.antt, line {number}, belongs to no definition: {line}")
    made, unknown = pages(book), book.unknown()
    write(asked.folder, made)
    print(f"{os.path.join(asked.folder, 'index.html')}: {len(book.promises)} promises, {len(book.definitions)} definitions, {len(book.contracts)} contracts,"
          f" {len(made)} files; {len(unknown)} words not found ({len({text for _, text in unknown})} different)")
    return statuses.HOLDS
