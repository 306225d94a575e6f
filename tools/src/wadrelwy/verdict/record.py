"""A verdict as one object (`--json`): all that its lines say, with digests of what it is of, numbers as numbers, and places with their parts.
Addresses are eight hexadecimal digits, as in the lines; `text` has the lines themselves."""
from typing import Any, Optional, Sequence, Union

from wadrelwy.sweep.kept import digest
from wadrelwy.view.disassembly import Disassembler
from wadrelwy.view.trace import End

from . import answered, certificate, report, secrecy, wrong_path
from .chain import Chain
from .given import File, Given
from .wrong_path import Fate


def of_file(file: File) -> dict:
    """A file that was asked of: its sha256; where something is set in it what, and the sha256 of the copy that was asked of."""
    found = {"file": file.named, "sha256": digest(file.named)}
    return found | ({"set": file.values, "asked_sha256": digest(file.copy)} if file.values else {})


def programs(paths: Sequence[Optional[str]]) -> list:
    return [{"file": path, "sha256": digest(path)} for path in paths if path is not None]


def place(pc: int, texts: Disassembler) -> dict:
    """An instruction: where it stands, and what it is."""
    image = texts.image
    return {"address": f"{pc:08x}", "instruction": texts.text(pc), "symbol": image.symbol(pc) or None, "line": image.sources.told(pc) or None}


def of_end(end: Optional[End]) -> Optional[dict]:
    """How a run ended; one of the instruction set has no cycles."""
    if end is None:
        return None
    return {"end": end.how, "retired": end.retired} | ({} if end.cycles is None else {"cycles": end.cycles})


def of_shown(shown: "Optional[Union[secrecy.Shown, secrecy.PathShown]]", texts: Disassembler) -> Optional[dict]:
    """What shows first: which of an instruction, in which cycle, of which entry; or in which step of the instruction set."""
    if shown is None:
        return None
    when = {"step": shown.step} if isinstance(shown, secrecy.PathShown) else {"cycle": shown.cycle, "entry": shown.serial}
    return {"kind": shown.what, "what": secrecy.WHAT[shown.what]} | when | place(shown.pc, texts)


def of_fate(fate: Optional[Fate], texts: Disassembler) -> Optional[dict]:
    """Whether it is on the path, or on a wrong one, and from where."""
    if fate is None:
        return None
    behind = {name: place(pc, texts) for name, pc in (("behind", fate.pc), ("other", fate.other)) if pc is not None}
    return {"kind": fate.kind, "told": wrong_path.sentence(fate, texts)} | behind


def of_chain(chain: Optional[Chain], texts: Disassembler) -> Optional[dict]:
    """How what shows first was made of a secret byte: by how many instructions, and which were the last."""
    if chain is None:
        return None
    return {"byte": f"{chain.byte:08x}", "symbol": texts.image.symbol(chain.byte) or None, "instructions": chain.length,
            "last": [place(pc, texts) for pc in chain.last]}


def of_ranges(image: Any, addresses: Sequence[int]) -> list:
    """Sorted addresses as ranges, each by its first and its last byte."""
    found: list = []
    for address in addresses:
        if found and found[-1][1] + 1 == address:
            found[-1][1] = address
        else:
            found.append([address, address])
    return [{"first": f"{first:08x}", "last": f"{last:08x}", "bytes": last - first + 1, "symbol": image.symbol(first) or None}
            for first, last in found]


def described(case: Any, given: Given) -> dict:
    assert given.description is not None
    return of_file(given.description) | {"model": case.machine.model, "defence": case.machine.defence}


def of_run(case: "certificate.Case", given: Given, most: int) -> dict:
    """What is asked of, and how far: a core, in cycles; or a run of the instruction set, in steps, with the memory that its cores have."""
    if not case.answer.of_path:
        return {"cycles": most, "description": described(case, given)}
    memory = {"base": f"{case.image.base:08x}", "bytes": len(case.image.memory), "misaligned": case.image.misaligned}
    return {"steps": most, "memory": memory | (of_file(given.description) if given.description else {})}


def of_one(case: "certificate.Case", given: Given, most: int, asked: Sequence[Optional[str]], lines: list) -> dict:
    """The verdict on one image and its secret."""
    texts, shown = Disassembler(case.image), case.answer.shown
    return {
        "verdict": case.word(), "status": case.status(), "goes_on": case.answer.is_cut, "meaning": answered.meaning(case.answer, case.touched),
        **of_run(case, given, most), "image": of_file(given.images[0]),
        "secret": [range_ for each in case.secret for range_ in of_ranges(case.image, each.addresses)],
        "public_streams": list(case.streams), "path": case.touched._asdict(), "run": of_end(case.answer.end),
        "published": None if case.published is None else case.published.hex(),
        "shown": of_shown(shown, texts), "fate": of_fate(case.fate, texts), "made": of_chain(case.chain, texts),
        "all": None if case.all is None else [place(pc, texts) | {"what": what, "times": each.times, "cycle": each.cycle, "on_path": each.retired}
                                              for (pc, what), each in case.all.items()],
        "programs": programs(asked), "text": lines}


def of_two(case: "report.Case", given: Given, cycles: int, asked: Sequence[Optional[str]], lines: list) -> dict:
    """The verdict on two images."""
    texts, premises = Disassembler(case.one), case.premises
    images = [of_file(file) | (of_end(end) or {}) for file, end in zip(given.images, case.pair.ends)]
    ended = None if premises.path.end is None else " ".join(str(part) for part in premises.path.end[:2])
    return {
        "verdict": case.word(), "status": case.status(), "goes_on": case.pair.is_cut, "meaning": report.MEANING[case.word()],
        "cycles": cycles, "description": described(case, given), "A": images[0], "B": images[1],
        "memory": of_ranges(case.one, premises.memory),
        "code": {"one_entry": premises.one_entry, "differ": [f"{address:08x}" for address in premises.code]},
        "path": {"steps": premises.path.steps, "end": ended, "loaded": len(premises.path.loads),
                 "differ": [{"byte": f"{address:08x}", "first_by": place(pc, texts)} for address, pc in premises.shown.items()]},
        "premises": {"met": case.met, "promised": case.promised}, "first_unequal_cycle": case.pair.unequal,
        "one_run": of_asked(case.asked, texts, given),
        "held": [place(pc, texts) | {"what": what, "times": held.times, "cycles": held.cycles, "dropped": held.dropped, "let_go_on": held.retired}
                 for (pc, what), held in case.telling.held.items()],
        "wrong_paths": {"loads": sum(case.telling.wrong_loads.values()), "values": case.telling.wrong_values},
        "shown": [place(pc, texts) | {"what": what, "times": each.times, "cycle": each.cycle} for (pc, what), each in case.telling.shown.items()],
        "programs": programs(asked), "text": lines}


def of_asked(asked: secrecy.Asked, texts: Disassembler, given: Given) -> dict:
    """Whether the first one's run certifies the bytes that differ."""
    answer = asked.answer
    if answer is None:
        return {"asked": False, "why": given.told(asked.why)}
    return {"asked": True, "shown": of_shown(answer.shown, texts), "run": of_end(answer.end)}
