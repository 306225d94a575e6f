"""The public calls of each crate, by its sources, as the page docs/calls.md has them.

A call is public where its crate's lib.rt has it or names it in a `pub use`: a function, a function of such a type, or one of a
trait. Of each stand the first sentence of its documentation, what it answers, and each of its `requires`. Crates of tests alone are
left out."""
import os
import re
import sys

sys.path.append(os.path.join(os.path.dirname(os.path.dirname(os.path.realpath(__file__))), "src"))

from wadrelwy.definitions import rust

TOP = os.path.dirname(os.path.dirname(os.path.dirname(os.path.abspath(__file__))))
PAGE = "docs/calls.md"
HEAD = """# The public calls

Written by `tools/documents/calls` from the sources of the crates; it isn't edited. It is the list behind `docs/theorems.md`, "Safe and total": each
call whose conditions are met returns. What a call promises are the clauses of its contract, which stand at the call itself; a crate's
promise in one line is in `docs/parts.md`, "The parts".

- **Call** has the function's name, and in brackets its parameters.
- **Answers** is the type of its result. Of a `Result` the last section says what each error is. "A law" is a function with an empty
  body, whose clauses are the promise.
- **Asks** has each condition as it stands in the source; `old` is a value before the call. A dash is a call without conditions.
"""
ERROR = re.compile(r"^#\[derive\([^)]*Error\)\]\n(?:#\[[^\n]*\n)*pub (?P<kind>enum|struct) (?P<name>\w+)", re.M)


def read(name):
    with open(os.path.join(TOP, name), encoding="utf-8") as file:
        return file.read()


def crates():
    """The crates of crates.txt that don't hold tests alone, in its order."""
    lines = (line.split("#")[0] for line in read("crates.txt").splitlines())
    names = [line.split(":")[0].split()[0] for line in lines if ":" in line]
    return [name for name in names if not name.endswith("_tests")]


def sources(crate):
    """The texts of a crate's src/, lib.rt first."""
    folder = f"crates/{crate}/src"
    names = sorted(name for name in os.listdir(os.path.join(TOP, folder)) if name.endswith(".rt"))
    return {name: read(f"{folder}/{name}") for name in sorted(names, key=lambda name: (name != "lib.rt", name))}


def exported(text):
    """The names that a lib.rt hands on, and those that it has itself."""
    used = re.findall(r"^pub use ([^;]+);", text, re.M)
    names = {name for path in used for name in re.findall(r"\w+", path.rpartition("::")[2] if "{" not in path else path.partition("{")[2])}
    return names | set(re.findall(r"^pub (?:fn|struct|enum|trait) (\w+)", text, re.M))


def call(it: rust.Function) -> dict:
    """A function's row: its name and parameters, what its documentation says, its result, and its conditions."""
    parameters = re.findall(r"(?:^|[(,]\s*)(&?(?:'\w+ )?(?:mut )?(?:self)\b|\w+(?=: ))", it.parameters)
    law = not parameters and not it.answers
    return {"call": f"`{it.full_name}`({', '.join(part.replace('mut ', '') if 'self' not in part else part for part in parameters)})",
            "says": it.says, "answers": "a law" if law else f"`{it.answers}`" if it.answers else "nothing",
            "asks": [rust.plain(clause.text) for clause in it.clauses if clause.kind == "requires"]}


def calls_of(crate):
    texts = sources(crate)
    names = exported(texts.get("lib.rt", ""))
    return [call(it) for text in texts.values() for it in rust.functions(text) if it.public and (it.owner or it.name) in names]


def cell(text):
    return text.replace("|", "\\|")


def code(condition):
    return f"`{cell(condition)}`"


def table(crate):
    rows = [f"| {row['call']} | {cell(row['says'])} | {cell(row['answers'])} | {'; '.join(map(code, row['asks'])) or '-'} |" for row in calls_of(crate)]
    return f"\n## {crate}\n\n| Call | What it does | Answers | Asks |\n|---|---|---|---|\n" + "\n".join(rows) + "\n" if rows else ""


def values_of(text, found):
    """What an error may be, by its declaration."""
    if found["kind"] == "struct":
        return "one value" if text.startswith(";", found.end()) else f"those that the calls of `{found['name']}` answer"
    body = text[found.end():rust.closing(text, text.index("{", found.end()), "{}")]
    return ", ".join(f"`{name}`" for name in re.findall(r"^    ([A-Z]\w*)", body, re.M))


def errors():
    """Each public error: its name, its crate, and what each of its values is."""
    rows = []
    for crate in crates():
        texts = sources(crate)
        names = exported(texts.get("lib.rt", ""))
        rows += [f"| `{crate}` | `{found['name']}` | {values_of(text, found)} |" for text in texts.values()
                 for found in ERROR.finditer(text) if found["name"] in names]
    return "\n## Errors\n\n| Crate | Error | Its values |\n|---|---|---|\n" + "\n".join(rows) + "\n"


def page():
    return HEAD + "".join(table(crate) for crate in crates()) + errors()


def wrong_page():
    """That the page isn't as the sources have it; nothing where it is."""
    right = os.path.exists(os.path.join(TOP, PAGE)) and read(PAGE) == page()
    return [] if right else [f"{PAGE}: isn't as `python3 tools/documents/calls` writes it"]
