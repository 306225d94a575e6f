"""What each crate is for, where its rules stand and what it promises: the blocks of the documents that are made from the crates' own words.

The documentation of a crate's module, the `//!` lines at the top of its lib.rt (or main.rt), is the one place where the crate is described.
Its first sentence says what the crate is for. Three of its paragraphs begin with a word: `Rules:` says where the rules stand, `Promises:`
what the crate promises, `Clauses:` which calls and clauses carry that. A crate of tests has neither promises nor clauses. The order of the
crates, and the layers, are those of crates.txt.

A document has a block between two lines, which name it: `<!-- tools/documents/map: NAME -->` and `<!-- end of NAME -->`."""
import os
import re
import sys
from typing import NamedTuple

sys.path.append(os.path.join(os.path.dirname(os.path.dirname(os.path.realpath(__file__))), "src"))

from wadrelwy.definitions import rust

TOP = os.path.dirname(os.path.dirname(os.path.dirname(os.path.abspath(__file__))))
LABELS = ("Rules", "Promises", "Clauses")
# where the rules of a crate may be said to stand
PLACE = re.compile(r"`((?:\w+/)?(?:specs|proofs)/[\w/]*(?:\.antt)?|(?:\w+/)*[A-Z]\w*\.antt)`")


class Crate(NamedTuple):
    """A crate as its own words have it."""
    name: str
    layer: str
    purpose: str
    rules: str
    promises: str
    clauses: str


def read(name: str) -> str:
    """The text of a file of the tree."""
    with open(os.path.join(TOP, name), encoding="utf-8") as file:
        return file.read()


def layers() -> list[tuple[str, list[str]]]:
    """The layers of crates.txt with their crates, from the ground up."""
    found: list[tuple[str, list[str]]] = []
    for line in read("crates.txt").splitlines():
        if line.startswith("# ") and not line.endswith(".."):
            found.append((line[2:], []))
        elif ":" in line.split("#")[0]:
            if not found:
                found.append(("", []))
            found[-1][1].append(line.split(":")[0].split()[0])
    return [(layer, names) for layer, names in found if names]


def root(name: str) -> str:
    """The file of a crate whose head describes it."""
    lib = f"crates/{name}/src/lib.rt"
    return lib if os.path.exists(os.path.join(TOP, lib)) else f"crates/{name}/src/main.rt"


def crate(name: str, layer: str) -> Crate:
    """What a crate says of itself; a part that it doesn't say is empty."""
    said = rust.paragraphs(read(root(name)))
    labelled = {label: next((part[len(label) + 2:].rstrip(".") for part in said if part.startswith(f"{label}: ")), "") for label in LABELS}
    purpose = rust.first_sentence(said[0]).rstrip(".") if said and not said[0].startswith(tuple(f"{label}: " for label in LABELS)) else ""
    return Crate(name, layer, purpose, *labelled.values())


def crates() -> list[Crate]:
    """Each crate of crates.txt, from the ground up."""
    return [crate(name, layer) for layer, names in layers() for name in names]


def cell(text: str) -> str:
    """A text as a cell of a table."""
    return text.replace("|", "\\|")


def map_block(found: list[Crate]) -> str:
    """The map: what each crate is for and where its rules stand, from the top to the ground."""
    rows, layer = ["| Crate | What it is for | Where its rules stand |", "|---|---|---|"], None
    for it in reversed(found):
        if it.layer != layer:
            layer = it.layer
            rows.append(f"| **{layer}** | | |")
        rows.append(f"| `{it.name}` | {cell(it.purpose)} | {cell(it.rules)} |")
    return "\n".join(rows)


def parts_block(found: list[Crate]) -> str:
    """What each crate promises, from the ground up, without those that promise nothing."""
    rows = ["| Crate | Promise | Clauses |", "|---|---|---|"]
    return "\n".join(rows + [f"| `{it.name}` | {cell(it.promises)} | {cell(it.clauses)} |" for it in found if it.promises])


def count_block(found: list[Crate]) -> str:
    """How many crates and layers there are."""
    return f"The tree has {len(found)} crates in {len({it.layer for it in found})} layers."


# the blocks, each with its document
BLOCKS = {"map": ("docs/architecture.md", map_block), "parts": ("docs/parts.md", parts_block), "crates": ("README.md", count_block)}


def marks(name: str) -> tuple[str, str]:
    """The lines before and behind a block."""
    return f"<!-- tools/documents/map: {name} -->\n", f"\n<!-- end of {name} -->\n"


def with_block(text: str, name: str, block: str) -> str | None:
    """A document with its block made anew; none where it has no such block."""
    before, behind = marks(name)
    begin = text.find(before)
    end = text.find(behind, begin) if begin >= 0 else -1
    return text[:begin + len(before)] + block + text[end:] if end >= 0 else None


def wrong_crates(found: list[Crate]) -> list[str]:
    """What crates don't say of themselves, and files of rules that aren't there."""
    missing = [f"{root(it.name)}: its documentation has no {what}" for it in found
               for what, said in (("first sentence", it.purpose), ("line Rules:", it.rules)) if not said]
    alone = [f"{root(it.name)}: it has one of the lines Promises: and Clauses: alone" for it in found if bool(it.promises) != bool(it.clauses)]
    lost = [f"{root(it.name)}: names {place}, which isn't there" for it in found for place in lost_places(it)]
    lost += [f"{root(it.name)}: names {name}, which its sources don't have" for it in found for name in lost_calls(it)]
    unknown = [f"crates/{name}: crates.txt doesn't name it" for name in folders() if name not in {it.name for it in found}]
    return missing + alone + lost + unknown


def folders() -> list[str]:
    """The crates that have a folder with sources."""
    return sorted(name for name in os.listdir(os.path.join(TOP, "crates")) if os.path.exists(os.path.join(TOP, root(name))))


def lost_places(it: Crate) -> list[str]:
    """The files of rules that a crate names and that aren't there. A bare name is of the folder that was named last."""
    lost, folder = [], f"crates/{it.name}/specs"
    for place in PLACE.findall(it.rules):
        if re.match(r"(?:\w+/)?(?:specs|proofs)/", place):
            path = f"crates/{place}" if not place.startswith(("specs/", "proofs/")) else f"crates/{it.name}/{place}"
            folder = path.rpartition("/")[0]
        else:
            path = f"{folder}/{place}"
        if not os.path.exists(os.path.join(TOP, path)):
            lost.append(place)
    return lost


def lost_calls(it: Crate) -> list[str]:
    """The calls, types and laws of a crate's clauses that its sources, comments apart, don't name."""
    folder = f"crates/{it.name}/src"
    files = sorted(name for name in os.listdir(os.path.join(TOP, folder)) if name.endswith(".rt"))
    words = set(re.findall(r"\w+", "".join(re.sub(r"(?m)(^|\s)//.*$", "", read(f"{folder}/{name}")) for name in files)))
    return [name for name in re.findall(r"`([\w:]+)`", it.clauses) if not set(name.split("::")) <= words]


def wrong_blocks() -> list[str]:
    """What keeps the documents from being as the crates' words have them."""
    found = crates()
    wrong = wrong_crates(found)
    for name, (document, made) in BLOCKS.items():
        text = read(document) if os.path.exists(os.path.join(TOP, document)) else ""
        right = with_block(text, name, made(found))
        if right is None:
            wrong.append(f"{document}: has no block `{name}`")
        elif right != text:
            wrong.append(f"{document}: its block `{name}` isn't as `tools/documents/map --write` writes it")
    return wrong


def write_blocks() -> list[str]:
    """Makes each block anew. Answers the blocks that have no place."""
    found, lost = crates(), []
    for name, (document, made) in BLOCKS.items():
        right = with_block(read(document), name, made(found))
        if right is None:
            lost.append(f"{document}: has no block `{name}`")
        else:
            with open(os.path.join(TOP, document), "w", encoding="utf-8") as file:
                file.write(right)
    return lost
