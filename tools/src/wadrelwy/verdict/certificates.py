"""What came of a table's runs: certificates and what shows first, as rows, CSV and Markdown."""
import csv
import io
import json
import os
from collections import Counter
from concurrent.futures import ThreadPoolExecutor
from functools import cache
from typing import NamedTuple, Optional

from wadrelwy import statuses
from wadrelwy.sweep import settings
from wadrelwy.sweep.kept import digest, text, write
from wadrelwy.sweep.results import Store
from wadrelwy.view import Fault
from wadrelwy.view.description import read_description
from wadrelwy.view.disassembly import Disassembler
from wadrelwy.view.image import Image

from . import answered, certificate, published, ranges, report, secrecy, wrong_path
from .loaded import ISA_BASE, ISA_SIZE, Loaded
from .touched import Touched, look
from .wrong_path import Fate, fate_of

SHORT = {secrecy.ACCESS: "address", secrecy.DIVISION: "time", secrecy.BRANCH: "branch", secrecy.CALL: "call"}
REFUSED = "refused"
EVERY_CORE = "every core that delays"
# how a run of the instruction set is counted that its budget ended
PATH_CUT = "path cut"
KINDS = {statuses.EVERY_CORE: answered.EVERY_CORE, PATH_CUT: "in which nothing shows in the first steps",
         statuses.CUT: "{certified} in their first cycles alone", statuses.TRAPPED: "to a trap", statuses.VACUOUS: "vacuous",
         statuses.EXIT_VALUE: "{certified} with another exit value than 0", REFUSED: "refused"}


class Row(NamedTuple):
    """A run that is over: the program and its folder, which is named for what built it; its secret; the setting, which names its column: the
    description, the defence and what else is set; all values that are set; the answer; the image's file; and, where streams are public, which, and
    what was published. Of a run of the instruction set `every core that delays` stands for the defence."""
    program: str
    build: str
    secret: str
    setting: tuple
    values: dict
    answer: Optional[secrecy.Answer]
    image: str
    touched: Optional[Touched] = None
    refused: Optional[str] = None
    fate: Optional[Fate] = None
    id: str = ""
    streams: tuple = ()
    published: Optional[bytes] = None

    def verdict(self):
        """`certified`, `certified for what is published`, `certified in the first 1000 cycles`, `certified, exit 1`, `vacuous`, `exposed`, or
        `refused K6`."""
        return self.refused or answered.word(self.answer, self.touched)

    def status(self):
        return statuses.CUT if self.refused else answered.status(self.answer, self.touched)


@cache
def image_of(path):
    return Image(path)


@cache
def texts_of(path):
    return Disassembler(image_of(path))


def rows(plan, asks):
    """The rows of all runs that are over, and those that are missing, each with why."""
    for run in plan.runs:
        plan.check(run)
    store = Store(plan, asks)
    done = [run for run in plan.runs if run.refused or run.id in store.found]
    return [row_of(plan, run, store) for run in done], [(run, store.why(run)) for run in plan.runs if run not in done]


def with_fates(plan, found, simulator, jobs):
    """The rows, each exposure with what became of its instruction; a walk that was made is kept."""
    # rows of one name are of one run, such as those of two descriptions of one text
    runs, rows_of = {run.id: run for run in plan.runs}, {row.id: row for row in found}
    with ThreadPoolExecutor(jobs) as pool:
        fates = dict(zip(rows_of, pool.map(lambda row: fate_of_run(plan, runs[row.id], row, simulator), rows_of.values())))
    return [row._replace(fate=fates[row.id]) for row in found]


def fate_of_run(plan, run, row, simulator):
    """What became of what shows in a core's run, as it was kept, or by a walk."""
    if row.answer is None or row.answer.shown is None or run.of_path:
        return None
    path = plan.path(os.path.join("fates", f"{run.id}_{digest(simulator)[:16]}"))
    if not os.path.exists(path):
        found = fate_of(simulator, plan.path(run.description), row.image, row.answer.shown, plan.cycles)
        os.makedirs(plan.path("fates"), exist_ok=True)
        write(path, json.dumps([*row.answer.shown, *found]).encode())
    try:
        kept = json.loads(text(path))
    except ValueError:
        kept = None
    if not isinstance(kept, list) or len(kept) != 7 or kept[:4] != [*row.answer.shown]:
        raise Fault(f"{path} is of another answer, or was cut. Remove it, and ask again")
    return Fate(*kept[4:])


def told_setting(plan, run):
    """The defence of a run, or that it is of every core that delays, and what else is set."""
    more = [f"{key} {value}" for key, value in run.values.items() if key not in (settings.MODEL, settings.DEFENCE)]
    if run.of_path:
        return [EVERY_CORE, *more]
    values = settings.parsed(text(plan.path(run.description)), run.description)
    return [settings.told(values), *more]


def build_of(run):
    """The folder of an image, which is named for what built it, with as much of the folders above it as tells it from the others."""
    return os.path.dirname(run.program) or os.path.basename(os.path.dirname(run.origin))


def row_of(plan, run, store):
    build, program = build_of(run), os.path.basename(run.origin)
    image, streams, setting = plan.path(run.image), secrecy.streams_in(run.words), (run.base, *told_setting(plan, run))
    row = Row(os.path.splitext(program)[0], build, secret_of(image, run.words), setting, run.values, None, image, refused=run.refused, id=run.id,
              streams=streams)
    if run.refused:
        return row
    read = secrecy.read_path_answer if run.of_path else secrecy.read_answer
    answer, description = read(store.found[run.id], streams, plan.program), plan.path(run.description) if run.description else None
    found = touched_in(image, description, tuple(secrecy.secrets_in(run.words)), certificate.steps_of(answer))
    return row._replace(answer=answer, touched=found, published=published_in(image, description, streams, answer, f"{plan.folder}, {run.name}"))


def published_in(path, description, streams, answer, name):
    """The bytes that a run published, where the program says how many."""
    if answer.published is None:
        return None
    return published.checked(output_of(path, memory_of(description), streams, answer.end.retired), answer, name)


def memory_of(description):
    """Base and size of a description's memory, and what it takes of addresses; without one those of `isa`."""
    if description is None:
        return ISA_BASE, ISA_SIZE
    machine = read_description(description)
    return machine.base, machine.size, machine.misaligned


@cache
def output_of(path, memory, streams, steps):
    """What so many steps publish: one walk for one memory."""
    return published.output(Loaded(path, *memory), streams, steps)


@cache
def touched_in(path, description, words, steps):
    """What the path does first with the bytes of these words: one walk for one memory."""
    return touched_of(path, memory_of(description), words, steps)


@cache
def touched_of(path, memory, words, steps):
    image = Loaded(path, *memory)
    return look(image, [ranges.named(image, word) for word in words], steps)


def secret_of(path, words):
    """The ranges with their symbols: `key, 16 bytes`."""
    image = image_of(path)
    found = [ranges.named(image, word) for word in secrecy.secrets_in(words)]
    return "; ".join(f"{image.symbol(each.address) or f'{each.address:08x}'}, {report.plural(each.size, 'byte')}" for each in found)


def where(row, pc):
    """Where an instruction stands: the source's line, else the function and offset, else the address."""
    image = image_of(row.image)
    return (image.sources.told(pc) or image.symbol(pc) or f"{pc:08x}") if pc is not None else "?"


def record(row, keys, cited):
    """A row with a name for each value."""
    shown, end, _ = row.answer or (None, None, None)
    image = image_of(row.image)
    return ({"program": row.program, "build": row.build, "secret": row.secret, "description": row.setting[0]}
            | {key: row.values.get(key, "") for key in keys}
            | {"defence": row.setting[1], "verdict": row.verdict(), **how_far(row.answer),
               "end": end.how if end else row.refused or "", "loaded": row.touched.loaded if row.touched else "",
               "overwritten": row.touched.overwritten if row.touched else "", "public_streams": " ".join(map(str, row.streams)),
               "published": len(row.published) if row.published is not None else "", "published_bytes": (row.published or b"").hex(),
               "what": SHORT[shown.what] if shown else "",
               "address": f"{shown.pc:08x}" if shown else "", "instruction": texts_of(row.image).text(shown.pc) if shown else "",
               "symbol": image.symbol(shown.pc) if shown else "", "line": image.sources.told(shown.pc) if shown else "", "path": row.fate.kind if row.fate else "",
               "behind": f"{row.fate.pc:08x}" if row.fate and row.fate.pc is not None else "", "made_by": cited})


def how_far(answer):
    """In which cycle or step something shows, or how many the run had; the other is empty."""
    if answer is None:
        return {"cycles": "", "steps": ""}
    shown, end = answer.shown, answer.end
    if answer.of_path:
        return {"cycles": "", "steps": shown.step if shown else end.retired}
    return {"cycles": shown.cycle if shown else end.cycles, "steps": ""}


def as_csv(found, keys, cited):
    out, given = io.StringIO(), [record(row, keys, cited) for row in found]
    writer = csv.DictWriter(out, list(given[0]) if given else ["program"], lineterminator="\n")
    writer.writeheader()
    writer.writerows(given)
    return out.getvalue()


def as_json(plan, found):
    """The table as one object: what it was made by and how far runs went, its status, and a record a row."""
    digests = {run.id: {"image_sha256": digest(plan.path(run.image)),
                        "description_sha256": digest(plan.path(run.description)) if run.description else None} for run in plan.runs}
    given = [record(row, plan.keys, plan.cited) | {"status": row.status()} | digests[row.id] for row in found]
    head = {"made_by": plan.cited, "program_sha256": digest(plan.path(plan.program)), "cycles": plan.cycles, "status": status(found),
            "summary": summary(found)}
    return json.dumps(head)[:-1] + ', "rows": [' + ",".join(f"\n{json.dumps(each)}" for each in given) + "\n]}\n"


def cell(row):
    """The verdict, with how many of the bytes are written over before they are loaded, and how many are published; or what shows:
    ``address, `table.c:9`, cycle 106``."""
    shown = row.answer and row.answer.shown
    if shown:
        fate = wrong_path.short(row.fate, lambda pc: where(row, pc)) if row.fate else ""
        when = f"step {shown.step}" if row.answer.of_path else f"cycle {shown.cycle}"
        return f"**{SHORT[shown.what]}**, `{where(row, shown.pc)}`, {when}{fate}"
    over = row.touched and row.touched.overwritten
    told = f"; {report.plural(len(row.published), 'byte')} published" if row.published is not None else ""
    return row.verdict() + (f"; {over} of {row.touched.size} bytes written over" if over else "") + told


def heading(setting, several):
    """The title of a column; the description stands in it where there are several."""
    description, defence, *more = setting
    return ", ".join(([description] if several and description else []) + [defence if defence == EVERY_CORE else f"`{defence}`"] + more)


def as_markdown(found, together=False):
    """A row for each program and build, a column for each setting; with `together` one row for all builds of a program of which all cells are the
    same."""
    columns = list(dict.fromkeys(row.setting for row in found))
    several = len({description for description, *_ in columns}) > 1
    titles = ["Program", "Build", "Secret"] + [heading(column, several) for column in columns]
    lines = [line(titles), "|" + "---|" * len(titles)]
    lines += [line([f"`{program}`", ", ".join(builds), secret, *cells]) for (program, secret, *cells), builds in rows_of(found, columns, together)]
    return "".join(f"{each}\n" for each in lines)


def rows_of(found, columns, together):
    """The program, the secret and the cells of each row of the table, with the builds that it is of."""
    cells = {(row.program, row.build, row.secret, row.setting): cell(row) for row in found}
    rows = {}
    for program, build, secret in dict.fromkeys((row.program, row.build, row.secret) for row in found):
        key = program, secret, *(cells.get((program, build, secret, column), "") for column in columns)
        rows.setdefault((key, None if together else build), []).append(build)
    return [(key, builds) for (key, _), builds in rows.items()]


def line(cells):
    return "| " + " | ".join(cells) + " |"


def summary(found):
    """How many of each kind."""
    kinds = Counter(kind(row) for row in found)
    is_public = any(row.streams for row in found)
    certified, best = (answered.PUBLISHED, statuses.PUBLISHED) if is_public else (answered.CERTIFIED, statuses.HOLDS)
    more = [f"{kinds[name]} {text.format(certified=certified)}" for name, text in KINDS.items() if kinds[name]]
    return ", ".join([f"{kinds[best]} {certified}", f"{kinds[statuses.SHOWS]} exposed", *more])


def kind(row):
    """What a row is counted as: its status, or that it is refused."""
    if row.refused:
        return REFUSED
    found = row.status()
    return PATH_CUT if found == statuses.CUT and row.answer.of_path else found


def status(found):
    """That of the worst row."""
    return statuses.worst(row.status() for row in found)


def files(folder):
    """The files of the table."""
    return tuple(os.path.join(folder, f"table.{ending}") for ending in ("md", "csv", "json"))
