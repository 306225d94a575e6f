"""What is reckoned from the rows of a run as curves over its cycles (SVG). Lengths are in pixels."""
from itertools import islice
from typing import Iterator, Optional, Sequence

from wadrelwy.sweep.plots import BOTTOM, HEIGHT, LEFT, RIGHT, TOP, Drawing, Scale, axis, heading

from .asked import Of
from .numbers import CPI, CYCLES, MEMORY, MISPREDICTIONS, MISSES, NAMES, SLOTS, Row, Told, reckoned, shares

WIDE, MOST_POINTS, MARKS, LINE = 900, 450, 6, 14
# the panels from above: what is drawn, its title, its colour
PANELS = ((CPI, "cycles per instruction", "#2e86c1"), (MISSES, "load misses per thousand instructions", "#ec7014"),
          (MEMORY, "loads from memory per thousand instructions", "#b9770e"),
          (MISPREDICTIONS, "mispredictions per thousand instructions", "#984ea3"))
# the colours of the slots by reason, from the foot of the stack on, and how many columns their names have below it
COLOURS = dict(zip(SLOTS, ("#4daf4a", "#b3b3b3", "#a6761d", "#984ea3", "#c48fd0", "#8c8c8c", "#a6cee3", "#6fa8dc", "#1f78b4", "#5ab4ac", "#fee391",
                           "#fec44f", "#ec7014", "#e9a3c9", "#fc8d59", "#b2df8a", "#f4c7dc", "#d7301f", "#444444"), strict=True))
COLUMNS = 6


def merged(rows: Sequence[Row]) -> list[Row]:
    """At most so many rows as are drawn, each of some rows that follow one another."""
    each, left, found = -(-len(rows) // MOST_POINTS), iter(rows), []
    while part := list(islice(left, each)):
        found.append(Row(part[-1].cycle, {name: sum(row.counts[name] for row in part) for name in (CYCLES, *NAMES)}))
    return found


def stretches(points: Sequence[tuple[int, Optional[float]]]) -> Iterator[list[tuple[int, float]]]:
    """The points in stretches: where nothing retired there is no figure, and the curve has a gap."""
    part: list[tuple[int, float]] = []
    for cycle, value in points:
        if value is not None:
            part.append((cycle, value))
        elif part:
            yield part
            part = []
    if part:
        yield part


def picture(of: Of, told: Told) -> str:
    """A panel for each figure, one below the other; and what they are of."""
    rows, drawing = merged(told.rows), Drawing()
    figures = [reckoned(row.counts) for row in rows]
    each = rows[0].counts[CYCLES] if rows else of.question.every
    fewer = ", the last of fewer" if rows and rows[-1].counts[CYCLES] != each else ""
    heading(drawing, LEFT, 22, f"{of.question.image} under {of.question.description}: each point is of {each} cycles{fewer}")
    drawing.height, drawing.width = 30, max(drawing.width, LEFT + WIDE + RIGHT)
    for name, title, colour in PANELS:
        panel(drawing, [(row.cycle, figure[name]) for row, figure in zip(rows, figures)], title, colour)
    stack(drawing, rows)
    facts = [told.end.text, *(f"{name} {of.digests[name]}" for name in of.question.files), of.cited]
    for fact in facts:
        drawing.height += LINE
        heading(drawing, LEFT, drawing.height, fact, 9, "")
    drawing.height += LINE
    return str(drawing.svg())


def panel(drawing: Drawing, points: Sequence[tuple[int, Optional[float]]], title: str, colour: str) -> None:
    """One system of axes with its curve."""
    top, last = drawing.height + TOP, max([1, *(cycle for cycle, _ in points)])
    scale = Scale([value for _, value in points if value is not None], top)
    drawing.text(LEFT, top - 10, title, "start", 12, 'font-weight="bold"')
    axis(drawing, scale, LEFT, LEFT + WIDE, lambda value: f"{value:g}")
    for mark in range(MARKS + 1):
        drawing.text(LEFT + WIDE * mark / MARKS, top + HEIGHT + 16, f"{last * mark / MARKS:.0f}")
    drawing.text(LEFT + WIDE / 2, top + HEIGHT + 32, CYCLES)
    for part in stretches(points):
        dots = [(LEFT + WIDE * cycle / last, scale.y(value)) for cycle, value in part]
        places = " ".join(f"{x:.1f},{y:.1f}" for x, y in dots)
        drawing.pieces.append(f'<polyline points="{places}" fill="none" stroke="{colour}" stroke-width="1.5"/>')
        for (x, y), (cycle, value) in zip(dots, part):
            drawing.pieces.append(f'<circle cx="{x:.1f}" cy="{y:.1f}" r="2" fill="{colour}"><title>cycle {cycle}: {value:.3f}</title></circle>')
    drawing.height = top + HEIGHT + BOTTOM


def stack(drawing: Drawing, rows: Sequence[Row]) -> None:
    """Of each row the part of its slots that each reason has, one on the other; below them what the colours are."""
    top, last, began = drawing.height + TOP, max([1, *(row.cycle for row in rows)]), 0
    drawing.text(LEFT, top - 10, "slots of retirement by reason, in percent", "start", 12, 'font-weight="bold"')
    axis(drawing, Scale([100.0], top), LEFT, LEFT + WIDE, lambda value: f"{value:g}")
    scale = Scale([100.0], top)
    used: set[str] = set()
    for row in rows:
        left, right, below = LEFT + WIDE * began / last, LEFT + WIDE * row.cycle / last, 0.0
        for name, share in shares(row.counts).items():
            if share:
                upper, used = below + 100 * share, used | {name}
                drawing.pieces.append(
                    f'<rect x="{left:.1f}" y="{scale.y(upper):.1f}" width="{right - left:.1f}" height="{scale.y(below) - scale.y(upper):.1f}" '
                    f'fill="{COLOURS[name]}"><title>cycles {began + 1} to {row.cycle}, {plain(name)}: {100 * share:.1f} %</title></rect>')
                below = upper
        began = row.cycle
    for mark in range(MARKS + 1):
        drawing.text(LEFT + WIDE * mark / MARKS, top + HEIGHT + 16, f"{last * mark / MARKS:.0f}")
    for place, name in enumerate(name for name in SLOTS if name in used):
        x, y = LEFT + place % COLUMNS * WIDE / COLUMNS, top + HEIGHT + 34 + place // COLUMNS * LINE
        drawing.pieces.append(f'<rect x="{x:.1f}" y="{y - 9:.1f}" width="9" height="9" fill="{COLOURS[name]}"/>')
        drawing.text(x + 13, y, plain(name), "start", 9)
    drawing.height = top + HEIGHT + BOTTOM + -(-len(used) // COLUMNS) * LINE


def plain(name: str) -> str:
    """A reason in words."""
    return name.removeprefix("slots_").replace("_", " ")
