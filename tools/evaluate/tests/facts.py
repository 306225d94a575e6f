"""The facts of crates/worked_runs/proofs of which the model is asked too: those that say what a whole run's rows are.

A fact says what a run's rows are: NAME : trace DESCRIPTION (code_of CODE) 0x10000 (memory BOUND SECRET) CYCLES ≡ record { rows = ROWS; .. }.
Here it is read as text, with the descriptions, words and rows that it names; an event's text is that of docs/formats.md, "The trace". What
`code_of` and `memory` are is said in crates/window_model/proofs/Worked.antt.
"""
import os
import re
from types import SimpleNamespace
from typing import NamedTuple

from wadrelwy.view.description import OPTIONAL

CRATES = os.path.join(os.path.dirname(os.path.realpath(__file__)), "..", "..", "..", "crates")
# what facts name and the files of facts, each with the facts of one matter
SHARED = ["machine_desc/specs/Example", "rv_types/specs/Causes", "window_model/proofs/Worked", "worked_runs/proofs/Version2"]
FILES = ["Flow", "Accesses", "BoundsCheck", "Shadows", "PassedStores", "Violated", "Unprotected", "Held", "Delayed"]

# the version of a description that is `renewed`
NEWEST = 2
START, SIZE = 0x10000, 0x10000
BOUND, SECRET = 0x1fff0, 0x1fff8

EVENTS = {
    "Fill": "fill:{:08x}", "Done": "done:{}", "Res": "res:{}:{}", "Bp": "bp:{}:{}", "Bt": "bt:{}:{:08x}", "Sq": "sq:{}", "Clr": "clr:{}",
    "Vio": "vio:{}", "Dp": "dp:{}:{}", "Ret": "ret:{}", "St": "st:{}:{:08x}:{}", "Call": "call:{}:{}", "Alu": "alu:{}", "Mul": "mul:{}",
    "Div": "div:{}:{}", "Agu": "agu:{}", "Std": "std:{}", "Ld": "ld:{}:{:08x}:{}", "LdForward": "ld:{}:f", "LdFault": "ld:{}:x",
    "Ren": "ren:{}:{:08x}", "Fet": "fet:{:08x}",
}
LETTERS = {"Taken": "T", "NotTaken": "N", "Jump": "J", "Hit": "h", "Miss": "m", "Join": "j", "true": "h", "false": "m"}

DEFINED = r"^(?:abbrev )?(?:pub )?(\w+) : {}\n\1 =\s*(.*?)(?=\n\n|\n\Z)"
FACT = re.compile(r"^(?P<name>\w+) : trace (?P<description>\w+) \(code_of (?P<code>\w+)\) 0x10000 \(memory (?P<bound>\d+) (?P<secret>\d+)\)"
                  r" (?P<budget>\d+)\s+≡ record \{ rows = (?P<rows>\w+); end = (?P<end>.+); retired = (?P<retired>\d+); cycles = (?P<cycles>\d+) \}$",
                  re.M)


class Fact(NamedTuple):
    """A run: its description's values, its image, at most how many cycles, and the trace's text that is wanted."""

    numbers: SimpleNamespace
    image: SimpleNamespace
    budget: int
    trace: str


def text_of(path):
    with open(os.path.join(CRATES, path + ".antt"), encoding="utf-8") as file:
        return file.read()


def defined(text, kind):
    """The definitions of this type, by their names."""
    return dict(re.findall(DEFINED.format(kind), text, re.M | re.S))


def key_of(name):
    """A key's name by that of its variant: rob by CoreRob."""
    return re.sub("(?<!^)([A-Z])", r"_\1", name).lower().split("_", 1)[1]


def numbers_of(name, text, descriptions):
    """The numbers of a function of keys, by the names of the keys; those of what it changes first."""
    *said, (_, rest) = re.findall(rf"^{name} (\w+) = (.*)$", text, re.M)
    changed = {key_of(key): int(value) for key, value in said}
    what, _, base = rest.removesuffix(" key").rpartition(" ")
    if rest == "least_of (row 1 key).values":
        return {key: default for key, (_, default) in OPTIONAL.items()} | changed
    return (values_of(base, text, descriptions) if what == "key_number" else numbers_of(base, text, descriptions)) | changed


def values_of(name, text, descriptions):
    """The values of a description, by the names of their keys."""
    how, *words = descriptions[name].split("(")[0].split()
    if how == "renewed":
        return values_of(words[0], text, descriptions) | {"version": NEWEST}
    if how == "with_stt":
        return values_of(words[0], text, descriptions) | {"model": words[1].lower(), "defence": words[2].lower()}
    assert how in ("desc_of_numbers", "tested"), how
    return numbers_of(words[1], text, descriptions) | {"version": int(words[0]), "model": words[2].lower(), "defence": words[3].lower()}


def image_of(code, bound, secret):
    """Words from 0x10000 on, and memory of zeros that has none of them, but for the bound and the secret."""
    words = dict(enumerate([int(word, 0) for word in code.split(" ∷ ")[:-1]]))
    memory = bytearray(SIZE)
    memory[BOUND - START], memory[SECRET - START] = bound, secret
    return SimpleNamespace(words={START + 4 * place: word for place, word in words.items()}, base=START, memory=memory, entry=START)


def event_text(event):
    name, *values = event.split()
    return EVENTS[name].format(*(LETTERS[value] if value in LETTERS else int(value, 0) for value in values))


def row_lines(rows):
    """The lines of a list of rows."""
    for number, events, first, count in re.findall(r"row (\d+) \(?(.*)\[\]\)?|quiet (\d+) (\d+)", rows):
        if number:
            yield " ".join([number, *map(event_text, events.split(" ∷ ")[:-1])])
        else:
            yield from map(str, range(int(first), int(first) + int(count)))


def end_text(end, causes):
    """How a run ended, as the last line has it."""
    if end == "None":
        return "budget"
    how, *values = re.fullmatch(r"Some \((.*)\)", end)[1].split()
    if how == "Exit":
        return f"exit {int(values[0], 0)}"
    number = re.search(r"number = (\d+)", causes[values[0]])[1]
    return f"trap {number} {int(values[1], 0):08x}"


def read_facts():
    """The facts of all files, by their names."""
    shared, facts = "\n".join(map(text_of, SHARED)), {}
    for file in FILES:
        text = shared + "\n" + text_of(f"worked_runs/proofs/{file}")
        descriptions, code, rows, causes = (defined(text, kind) for kind in ("Desc", "List ℕ", "List Row", "Cause"))
        for found in FACT.finditer(text):
            fact = SimpleNamespace(**found.groupdict())
            last = f"end {end_text(fact.end, causes)} retired {fact.retired} cycles {fact.cycles}"
            lines = [*row_lines(rows[fact.rows]), last]
            facts[fact.name] = Fact(SimpleNamespace(**values_of(fact.description, text, descriptions)),
                                    image_of(code[fact.code], int(fact.bound), int(fact.secret)), int(fact.budget),
                                    "".join(line + "\n" for line in lines))
    return facts


def names():
    """The names of all facts of traces in the files, in any form."""
    return [name for file in FILES for name in re.findall(r"^(\w+) : trace\b", text_of(f"worked_runs/proofs/{file}"), re.M)]
