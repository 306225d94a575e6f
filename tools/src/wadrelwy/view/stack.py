"""`stack`: the CPI stack of one run or of several side by side, as a table or as bars (SVG). Its sums are the cycles of the run."""
from html import escape
from typing import Iterator, TYPE_CHECKING

from . import slots as reasons

if TYPE_CHECKING:
    from wadrelwy.view.slots import Slots

COLOURS = {
    reasons.BASE: "#4daf4a", reasons.FRONT_END: "#b3b3b3", reasons.MISPREDICTION: "#984ea3", reasons.VIOLATION: "#c48fd0",
    reasons.SYSTEM_CALL: "#8c8c8c", reasons.ROOM: "#d9c29b", reasons.SIMPLE: "#a6cee3", reasons.MULTIPLIER: "#6fa8dc",
    reasons.DIVIDER_BUSY: "#1f78b4", reasons.STORES: "#5ab4ac", reasons.HIT: "#fee391", reasons.FORWARDED: "#fff7bc",
    reasons.SECOND_LEVEL: "#fec44f", reasons.MEMORY: "#ec7014", reasons.JOINED: "#cc4c02", reasons.FAULTING: "#7a5230",
    reasons.PORTS: "#f4c7dc", reasons.REGISTERS: "#e9a3c9", reasons.CLEARING: "#b2df8a", reasons.END: "#444444",
    reasons.UNEXPLAINED: "#000000", **dict(zip(reasons.KEPT.values(), ("#d7301f", "#7f0000", "#ce1256"), strict=True)),
    **dict(zip(reasons.SETTLING.values(), ("#b30000", "#fc8d59", "#e7298a"), strict=True))}
BAR, STEP, LEFT, WIDE, TOP, CHARACTER, LEGEND = 26, 40, 190, 640, 40, 6.6, 220


class Run:
    """The stack of a run: its name, the slots of each reason, the width, the cycles and what retired."""

    def __init__(self, name: str, slots: "Slots") -> None:
        self.name, self.sums, self.width, self.cycles = name, slots.sums(), slots.width, slots.cycles
        self.retired = self.sums.get(reasons.BASE, 0)

    def cycles_of(self, reason: str) -> float:
        return self.sums.get(reason, 0) / self.width


def used(runs: list) -> list:
    """The reasons that any of the runs has, in the stack's order."""
    return [reason for reason in reasons.STACK if any(run.sums.get(reason) for run in runs)]


def table(runs: list) -> Iterator[str]:
    """A row for each reason: of each run the cycles (slots divided by the width), and their share."""
    yield f"{'cycles':34}" + "".join(f"{run.name[-20:]:>22}" for run in runs)
    for reason in used(runs):
        yield f"{reason:34}" + "".join(cell(run.cycles_of(reason), run.cycles) for run in runs)
    yield f"{'sum':34}" + "".join(cell(sum(run.sums.values()) / run.width, run.cycles) for run in runs)
    yield f"{'retired instructions':34}" + "".join(f"{run.retired:>22}" for run in runs)
    yield f"{'cycles an instruction':34}" + "".join(f"{run.cycles / max(run.retired, 1):>22.3f}" for run in runs)


def cell(cycles: float, whole: int) -> str:
    return f"{cycles:>14.2f}{100 * cycles / max(whole, 1):>7.1f}%"


def picture(runs: list) -> str:
    """A bar for each run, as long as it has cycles, with a part for each reason; below them the legend."""
    most, names = max(run.cycles for run in runs), used(runs)
    parts = []
    for place, run in enumerate(runs):
        parts += bar(run, TOP + place * STEP, WIDE / max(most, 1))
    columns = (LEFT + WIDE) // LEGEND
    below = TOP + len(runs) * STEP + 10
    for place, reason in enumerate(names):
        x, y = 10 + place % columns * LEGEND, below + place // columns * 20
        parts.append(f'<rect x="{x}" y="{y}" width="12" height="12" fill="{COLOURS[reason]}"/>'
                     f'<text x="{x + 18}" y="{y + 10}">{escape(reason)}</text>')
    width = LEFT + WIDE + 16 + round(max(len(told(run)) for run in runs) * CHARACTER)
    height = below + -(-len(names) // columns) * 20 + 10
    return "\n".join([
        f'<svg xmlns="http://www.w3.org/2000/svg" width="{width}" height="{height}" viewBox="0 0 {width} {height}">',
        '<style>text{font:11px "DejaVu Sans",Arial,sans-serif;fill:#111}.title{font-weight:bold}.number{fill:#555}</style>',
        '<rect width="100%" height="100%" fill="white"/>', '<text class="title" x="10" y="20">Where the cycles went (CPI stack)</text>',
        *parts, "</svg>"])


def bar(run: "Run", y: int, scale: float) -> list:
    """The bar of a run: its name, a part for each reason with its cycles as a text under the pointer, and its cycles."""
    x = float(LEFT)
    name = run.name if len(run.name) <= 28 else ".." + run.name[-26:]
    parts = [f'<text x="{LEFT - 8}" y="{y + 17}" text-anchor="end">{escape(name)}</text>']
    for reason in used([run]):
        wide = run.cycles_of(reason) * scale
        parts.append(f'<rect x="{x:.2f}" y="{y}" width="{wide:.2f}" height="{BAR}" fill="{COLOURS[reason]}"><title>{escape(reason)}: '
                     f'{run.cycles_of(reason):.2f} cycles, {100 * run.cycles_of(reason) / max(run.cycles, 1):.1f} %</title></rect>')
        x += wide
    parts.append(f'<text class="number" x="{x + 6:.2f}" y="{y + 17}">{told(run)}</text>')
    return parts


def told(run: "Run") -> str:
    return f"{run.cycles} ({run.cycles / max(run.retired, 1):.2f} an instruction)"
