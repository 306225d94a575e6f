"""What is counted of a run as lines, and as JSON: of which files and by which program, the numbers, what is reckoned from them and from what."""
import json
from typing import Iterator, Optional

from .asked import Of
from .numbers import COUNTS, CYCLES, FIGURES, GEM5, MOST, NAMES, RECKONED, SLOTS, Row, Told, reckoned, shares

HEADS = ("cycle", "retired", "cycles per instruction", "load misses", "memory loads", "mispredictions")
WIDTHS = (12, 12, 24, 13, 14, 16)
NAME, VALUE = 44, 16


def plain(value: Optional[float]) -> str:
    """A figure as a text."""
    return "-" if value is None else f"{value:.3f}" if isinstance(value, float) else f"{value}"


def of_lines(of: Of) -> Iterator[str]:
    """What the run is of."""
    for name, path in of.question.files.items():
        yield f"{name:13} {path} sha256 {of.digests[name]}"
    yield f"{'by':13} {of.cited}"


def head() -> Iterator[str]:
    """Above the rows."""
    yield ""
    yield "in the cycles up to this one; misses, loads and mispredictions a thousand retired"
    yield "".join(f"{name:>{width}}" for name, width in zip(HEADS, WIDTHS))


def row_line(row: Row) -> str:
    """A row of cycles."""
    found = [str(row.cycle), str(row.counts["retired"]), *map(plain, reckoned(row.counts).values())]
    return "".join(f"{text:>{width}}" for text, width in zip(found, WIDTHS))


def whole_lines(told: Told) -> Iterator[str]:
    """The numbers of the whole run, what is reckoned from them, and gem5's names."""
    yield ""
    for name in COUNTS:
        yield f"{name:{NAME}}{told.counts[name]:>{VALUE}}" + (" or more" if told.counts[name] == MOST else "")
    yield ""
    for name, share in shares(told.counts).items():
        part = "" if share is None else f"   {100 * share:.1f} % of all slots"
        yield f"{name:{NAME}}{told.counts[name]:>{VALUE}}" + (" or more" if told.counts[name] == MOST else part)
    yield ""
    for name, figure in RECKONED.items():
        yield f"{name.replace('_', ' '):{NAME}}{plain(figure.of(told.counts)):>{VALUE}}   {figure.told}"
    yield ""
    for name, figure in GEM5.items():
        yield f"{name:{NAME}}{plain(figure.of(told.counts)):>{VALUE}}   {figure.told}"
    yield ""
    yield told.end.text


def as_json(of: Of, told: Told) -> Iterator[str]:
    """One object, with a row a line."""
    question = of.question
    found = {
        **{name: {"path": path, "sha256": of.digests[name]} for name, path in question.files.items()}, "made_by": of.cited,
        "budget": question.cycles, "every": question.every, "end": told.end.how, CYCLES: told.end.cycles,
        "counts": {name: told.counts[name] for name in NAMES},
        "reckoned": {name: {"value": RECKONED[name].of(told.counts), "from": RECKONED[name].told} for name in FIGURES},
        "gem5": {name: {"value": figure.of(told.counts), "from": figure.told} for name, figure in GEM5.items()},
    }
    text = json.dumps(found, indent=1)
    rows = ",\n".join(f"  {json.dumps(of_row(row))}" for row in told.rows)
    yield f'{text[:-2]},\n "rows": [\n{rows}\n ]\n}}' if question.every else text


def of_row(row: Row) -> dict:
    return {"cycle": row.cycle, "counts": {name: row.counts[name] for name in NAMES}, "reckoned": reckoned(row.counts)}
