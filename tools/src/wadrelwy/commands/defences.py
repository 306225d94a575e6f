"""What an attack shows under each setting of `stt`, and what each defence costs: a table in Markdown, a row for each victim of examples/,
or for each pair of images of your own.

    wadrelwy defences [--assembly D] [--large D] [--compiler gcc|clang|none] [--only NAME] [--set KEY=VALUE].. [--cycles N] [--program P]
    wadrelwy defences A B [A B].. [--large D] [--set KEY=VALUE].. [--cycles N] [--program P]

Each victim is run with two secrets under the model off, and under each defence with the models spectre and futuristic. A cell says whether
the two traces are equal, and in how many cycles the first run ends; behind it stands how many more that are than under off. `cut at N` says that the budget ended the run in cycle N, and `trap in N` that a trap did: what such a run costs isn't
known. `Promised` is where the premises of noninterference are met: yes, no, or under which models alone; off promises nothing.
The programs in C that are no victims have rows too, of their cycles alone.

The victims in assembly are run under the description of --assembly, examples/core_passing.toml without it; their second secret is written into
a copy of the image. Those in C are built by make with the compiler, and run under that of --large, examples/large_passing.toml. Of either
description model and defence are replaced. NAME is a part of a victim's name. N is 4294967295 without --cycles, so runs go to their end. P is the simulator, as
wadrelwy verdict finds it. Without make or the compiler the victims in C are left out, with a word on standard error.

A and B are two images that differ in nothing but a secret; an image without one is given twice. They are run under the description of --large
alone. --set gives a key of the descriptions another value, as --set core.rob=64.

The status is 0; 3 where the budget ended a run, 12 where a trap did; 16 where a defence that promises equal traces doesn't keep it, which contradicts what is proved; 2 for a refusal."""
import os
import re
import shutil
import subprocess
import sys
import tempfile
from typing import NamedTuple

from wadrelwy import Fault, built_programs, statuses
from wadrelwy.sweep import settings
from wadrelwy.sweep.kept import text
from wadrelwy.sweep.plan import names_of
from wadrelwy.verdict import simulator
from wadrelwy.view.description import DESCRIPTION_MAX, OFF, STT
from wadrelwy.view.trace import read_end

EXAMPLES = os.path.join(built_programs.ROOT, "examples")
SETTINGS = [(setting[settings.MODEL], setting[settings.DEFENCE]) for setting in settings.DEFENCES]
# the victims in assembly: where the secret stands, and the second one
SECRET = 0x0001fff8
VICTIMS = {"bounds_check": 0x22, "fault_shadow": 0x22, "store_bypass": 0x22, "tainted_store": 1, "tainted_divisor": 0x22,
           "target_injection": 0x22}
COMPILERS = {"gcc": "riscv64-unknown-elf-gcc", "clang": "clang"}


class Victim(NamedTuple):
    """A victim's name, its two images, and the description under which it is run. What is no victim has one image twice."""
    name: str
    images: tuple
    description: str


def words(parser):
    parser.add_argument("images", nargs="*", metavar="A B")
    parser.add_argument("--set", action="append", default=[], metavar="KEY=VALUE")
    parser.add_argument("--assembly", default=os.path.join(EXAMPLES, "core_passing.toml"))
    parser.add_argument("--large", default=os.path.join(EXAMPLES, "large_passing.toml"))
    parser.add_argument("--compiler", choices=[*COMPILERS, "none"], default="gcc")
    parser.add_argument("--only", default="")
    parser.add_argument("--cycles", type=int, default=4294967295)
    parser.add_argument("--program")


# ---- Victims


def own(images, description):
    """Pairs of images of the user's own, named by the first of each."""
    firsts = images[::2]
    names = names_of(firsts) if len(set(firsts)) == len(firsts) else firsts
    return [Victim(name, pair, description) for name, pair in zip(names, zip(firsts, images[1::2]))]


def with_secret(path, secret, folder):
    """A copy of an image with another byte for the secret."""
    with open(path, "rb") as file:
        content = bytearray(file.read())
    table, count = int.from_bytes(content[28:32], "little"), int.from_bytes(content[44:46], "little")
    for header in range(table, table + 32 * count, 32):
        kind, place, address, _, size = (int.from_bytes(content[at:at + 4], "little") for at in range(header, header + 20, 4))
        if kind == 1 and address <= SECRET < address + size:
            content[place + SECRET - address] = secret
    copy = os.path.join(folder, f"{secret:02x}_{os.path.basename(path)}")
    with open(copy, "wb") as file:
        file.write(content)
    return copy


def in_assembly(description, folder):
    """The victims in assembly."""
    for name, secret in VICTIMS.items():
        image = os.path.join(EXAMPLES, f"{name}.elf")
        yield Victim(f"{name}.s", (image, with_secret(image, secret, folder)), description)


def in_c(description, compiler, folder):
    """The victims in C, built by this compiler; none where it isn't there."""
    missing = [name for name in ("make", COMPILERS[compiler]) if shutil.which(name) is None]
    if missing:
        print(f"wadrelwy defences: no {missing[0]}: the victims in C are left out", file=sys.stderr)
        return
    made = subprocess.run(["make", "-C", os.path.join(EXAMPLES, "c"), compiler, f"BUILD={folder}"], capture_output=True, text=True, check=False)
    if made.returncode:
        raise Fault(f"make: {made.stderr.strip()}")
    built = os.path.join(folder, compiler)
    names = {re.sub("_[ab]$", "", file.removesuffix(".elf")) for file in os.listdir(built) if file.endswith(".elf")}
    plain = {name for name in names if os.path.exists(os.path.join(built, f"{name}.elf"))}
    for name in sorted(names - plain) + sorted(plain):
        files = [f"{name}.elf"] * 2 if name in plain else [f"{name}_a.elf", f"{name}_b.elf"]
        yield Victim(f"{name}.c", tuple(os.path.join(built, file) for file in files), description)


# ---- Runs


def with_setting(description, values, folder):
    """A copy of a description with these values."""
    copy = os.path.join(folder, f"{values[settings.MODEL]}_{values[settings.DEFENCE]}_{os.path.basename(description)}")
    made = settings.with_values(text(description, DESCRIPTION_MAX), values, description)
    with open(copy, "w", encoding="utf-8") as file:
        file.write(made)
    return copy


def set_values(words):
    """The values of --set, one for each key; model and defence are the table's."""
    values = dict(settings.asked(word) for word in words)
    several = [key for key, given in values.items() if len(given) > 1 or key in (settings.MODEL, settings.DEFENCE)]
    if several:
        raise Fault(f"--set {several[0]}: " + ("one value is asked for" if len(values[several[0]]) > 1 else "the table has each of them"))
    return {key: value for key, [value] in values.items()}


class Run(NamedTuple):
    """What the simulator says of two images under a setting, and how the first one's run ended."""
    answer: simulator.Answer
    end: str

    @property
    def cycles(self):
        return self.answer.cycles

    @property
    def exits(self):
        return self.end.startswith("exit ")

    def status(self):
        return statuses.CUT if self.end == "budget" else statuses.HOLDS if self.exits else statuses.TRAPPED


def compared(program, victim, values, cycles, folder):
    """The runs of the two images under each setting."""
    answers = []
    for setting in settings.DEFENCES:
        described = with_setting(victim.description, values | setting, folder)
        try:
            answers.append(simulator.answer(simulator.run(program, "pair", described, *victim.images, "--cycles", str(cycles))))
        except Fault as fault:
            raise Fault(str(fault).replace(described, victim.description)) from None
    steps = min(max(answer.retired for answer in answers) + 1, 4294967295)
    said = simulator.run(program, "isa", victim.images[0], "--steps", str(steps), "--desc", described)
    *_, last = said.splitlines() or [""]
    end = read_end(f"{last} cycles 0")
    return [Run(answer, ended(answer, end, cycles)) for answer in answers]


def ended(answer, end, cycles):
    """How a run ended: as on the instruction set, unless its budget ended it before. One that traps retires as much before that cycle as in
    it, so what fills its budget is taken as ended by that."""
    cut = answer.retired < end.retired or end.how == "budget" or end.how.startswith("trap ") and answer.cycles == cycles
    return "budget" if cut else end.how


# ---- The table


def heading():
    names = ["Victim", "Promised"] + [f"`{model}`" + (f", `{defence}`" if defence != STT else "") for model, defence in SETTINGS]
    return [row(names), row(["---"] * len(names)).replace(" ", "")]


def row(cells):
    return "| " + " | ".join(cells) + " |"


def line(victim, runs):
    """The row of a victim."""
    secret = len(set(victim.images)) > 1
    cells = [told(run.answer) * secret + took(run, runs[0] if place else None) for place, run in enumerate(runs)]
    return row([f"`{victim.name}`", promised(runs) if secret else "no secret", *cells])


def took(run, base):
    """How long a run took, and how much longer than without protection, where both exited."""
    if not run.exits:
        return f"{'cut at' if run.end == 'budget' else 'trap in'} {run.cycles}"
    return f"{run.cycles}" + (f" ({run.cycles - base.cycles:+})" if base is not None and base.exits else "")


def told(answer):
    return "equal, " if answer.unequal is None else "**unequal**, "


def promised(runs):
    """Under which of the models that protect the premises are met."""
    models = {model: run.answer.premise for (model, _), run in zip(SETTINGS, runs) if model != OFF}
    met = [model for model, premise in models.items() if premise]
    return "yes" if len(met) == len(models) else " ".join(f"`{model}`" for model in met) or "no"


def broken(runs):
    """Whether traces that are proved equal aren't."""
    return any(run.answer.premise and run.answer.unequal is not None and model != OFF for (model, _), run in zip(SETTINGS, runs))


def notes(rows):
    """What has to be said of the table: of a defence that takes fewer cycles than none, and of runs that didn't exit."""
    named = [victim.name for victim, runs in rows if runs[0].exits and any(run.exits and run.cycles < runs[0].cycles for run in runs)]
    found = [f"\nFaster than without protection: {', '.join(named)}. {settings.FASTER}"] if named else []
    ends = {run.status() for _, runs in rows for run in runs}
    if statuses.CUT in ends:
        found.append("\n`cut at N`: the budget ended the run in cycle N. What comes behind isn't looked at, and what it costs isn't known.")
    if statuses.TRAPPED in ends:
        found.append("\n`trap in N`: a trap ended the run in cycle N. What comes behind isn't looked at, and what it costs isn't known.")
    return found


def victims_of(asked, folder):
    if asked.images:
        return own(asked.images, asked.large)
    if not built_programs.IN_TREE:
        raise Fault("the victims stand in the tree's examples, and this command is installed without them: name images, A B, and --large")
    victims = [*in_assembly(asked.assembly, folder), *(in_c(asked.large, asked.compiler, folder) if asked.compiler != "none" else [])]
    return [victim for victim in victims if asked.only in victim.name]


def table(asked, program, folder):
    """Writes the table row by row, and answers the status."""
    values, rows, found = set_values(asked.set), [], [statuses.HOLDS]
    victims = victims_of(asked, folder)
    if not victims:
        raise Fault(f"no victim has `{asked.only}` in its name")
    for victim in victims:
        runs = compared(program, victim, values, asked.cycles, folder)
        print(*([] if rows else heading()), line(victim, runs), sep="\n", flush=True)
        rows.append((victim, runs))
        found += [run.status() for run in runs]
        if broken(runs):
            print(f"wadrelwy defences: {victim.name}: traces that are proved equal aren't: please report it", file=sys.stderr)
            found.append(statuses.REFUTED)
    print(*notes(rows), sep="\n", end="\n" * bool(notes(rows)))
    return statuses.worst(found)


def main(asked):
    if len(asked.images) % 2:
        raise Fault("images come in pairs")
    program = built_programs.simulator(asked.program)
    if program is None:
        raise Fault("no simulator: build it (docs/using.md, \"Before you start\"), or name it with --program")
    with tempfile.TemporaryDirectory() as folder:
        return table(asked, program, folder)
