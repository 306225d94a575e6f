"""`html --whole`: all cycles of a run in one page that stays quick. Rows are drawn as in the other pages (`drawing`), a hundred in a block,
and packed (gzip, in base64); the page unpacks those blocks that come in sight, and lets go of the others (`whole.js`)."""
import base64
import gzip
import json
from html import escape
from itertools import islice
from typing import Any, Iterable, Iterator

from . import Fault
from .drawing import CELL, CHARACTER, MARGIN, ROW, SERIAL, TOP, Panel, shortened, svg
from .items import NEVER
from .listing import IN_FLIGHT
from .page import ABOVE, CORNER, framed, headed
from .spans import spans_of

BLOCK = 100
# pixels of labels, of which the column shows as many as it is wide
LABELS = 4000
HEAD = 34
# rows and cycles of a page: browsers place nothing further away than some 17,000,000 pixels
MOST = 1000000
FOLLOW = '<label><input type="checkbox" id="follow" checked> cycles follow the rows</label>'


def packed(text: str) -> str:
    return base64.b64encode(gzip.compress(text.encode(), 6, mtime=0)).decode()


class Whole(Panel):
    """A panel whose rows are drawn and packed as they come, so that no more than a block of instructions is kept. `base` and `first` are the
    block's first row and cycle while it is drawn; afterwards `first` is the page's."""

    def __init__(self, title: str, replay: Any, disassembler: Any, span: tuple, mark: Any = None) -> None:
        self.title, self.disassembler, self.mark, self.facts = title, disassembler, mark, []
        self.items, self.named_rows, self.only, self.base = [], True, None, 0
        self.blocks: list = []
        self.columns: dict = {name: [] for name in ("place", "serial", "from", "to")}
        self.places: dict = {}
        self.shown: set = set()
        self.outcomes, longest = False, 20
        page, limit = span
        there = (item for item in replay.items(None if limit == NEVER else limit) if item.gone is None or item.gone >= page)
        for items in iter(lambda: list(islice(there, BLOCK)), []):
            self.first, self.last = page, min(limit, replay.pipeline.cycle)
            self.still = IN_FLIGHT if replay.trace.end else f"in flight in cycle {self.last}, the last that is shown"
            longest = max(longest, *(len(self.label(item)) for item in items))
            self.keep(items)
        self.first, self.last, end = page, min(limit, replay.pipeline.cycle), replay.trace.end
        self.subtitle = end.text if end else f"shown up to cycle {self.last}"
        self.fills = [(cycle, line) for cycle, line in replay.pipeline.fills if page <= cycle <= self.last]
        shown = min(longest, len(shortened("." * longest)))
        self.label_width, self.whole_width = (max(length, len(title)) * CHARACTER + SERIAL + 2 * MARGIN for length in (shown, longest))
        self.check()

    def check(self) -> None:
        for what, number in (("instructions", len(self.columns["from"])), ("cycles", self.last - self.first + 1)):
            if number > MOST:
                raise Fault(f"--whole: {number} {what}, and a page has {MOST} at most: --from and --to say which")

    def y(self, row: int) -> int:
        return TOP + (row - self.base) * ROW

    def names(self) -> set:
        return self.shown

    def has_outcomes(self) -> bool:
        return self.outcomes

    def keep(self, items: list) -> None:
        """Draws a block, and notes where its rows are found."""
        self.base, page = len(self.columns["from"]), self.first
        for item in items:
            self.note(item)
        self.first = max(page, min(item.fetched for item in items))
        behind = 1 + min(self.last, max(self.columns["to"][self.base:]))
        self.chart_width, height = (behind - self.first) * CELL + MARGIN, ROW * len(items)
        labels = "".join(line for row, item in enumerate(items, self.base) for line in self.label_drawn(row, item, self.label(item)))
        chart = self.lines(height) + "".join(self.row_drawn(row, item) for row, item in enumerate(items, self.base))
        drawn = [svg(labels, LABELS, TOP + height, TOP), svg(chart, self.chart_width, TOP + height, TOP)]
        self.blocks.append([self.first, packed("\0".join(drawn))])
        self.first = page

    def note(self, item: Any) -> None:
        """Notes an instruction's place, serial and cycles; and what it shows, for the legend."""
        gone = item.gone if item.gone is not None else item.trapped
        place = self.places.setdefault(item.pc, len(self.places))
        for name, value in (("place", place), ("serial", item.serial), ("from", item.fetched), ("to", self.last if gone is None else gone)):
            self.columns[name].append(value)
        self.shown |= {name for _, _, name in spans_of(item, self.last + 1)}
        self.outcomes = self.outcomes or bool(item.outcome)

    def lines(self, height: int) -> str:
        """Lines for every fifth cycle and row of the block."""
        last = self.first + int((self.chart_width - MARGIN) // CELL)
        down = [f"M{self.x(cycle)} {TOP}V{TOP + height}" for cycle in range(self.first, last) if cycle % 5 == 0]
        across = [f"M0 {TOP + at}H{self.chart_width - MARGIN}" for at in range(0, height, 5 * ROW)]
        return f'<path class="grid" d="{"".join(down + across)}"/>'

    def found(self) -> str:
        """Where rows are found: their columns, of which cycles and serials are told as what they are more than the one before."""
        named = [[f"{pc:08x}", self.disassembler.image.symbol(pc)] for pc in self.places]
        told = {"place": self.columns["place"], "serial": list(differences(self.columns["serial"])), "from": list(differences(self.columns["from"])),
                "lasts": [to - since for to, since in zip(self.columns["to"], self.columns["from"])], "places": named, "fills": self.fills}
        return packed(json.dumps(told, separators=(",", ":")))


def differences(values: Iterable[int]) -> Iterator[int]:
    before = 0
    for value in values:
        yield value - before
        before = value


def page(panels: "list[Whole]") -> str:
    """The page of one or two whole runs."""
    for panel, letter in zip(panels, "AB" if len(panels) > 1 else [""]):
        panel.letter = letter
    return framed(panels, map(drawn, panels), "whole.js", FOLLOW)


def drawn(panel: Whole) -> str:
    """A heading, and a chart that is empty until its blocks come in sight; behind it they stand, packed."""
    width, height = (panel.last - panel.first + 1) * CELL + MARGIN, ROW * len(panel.columns["from"]) + MARGIN
    mark = f'<div class="frame" style="left:{(panel.mark.cycle - panel.first) * CELL - 1}px"></div>' if is_marked(panel) else ""
    parts = [svg(CORNER, panel.whole_width, ABOVE + HEAD, ABOVE, "corner"), f'<div class="numbers" style="width:{width}px"></div>',
             f'<div class="labels" style="height:{height}px"></div>',
             f'<div class="cells" style="width:{width}px;height:{height}px"><div class="column" hidden></div>{mark}</div>']
    data = json.dumps({"block": BLOCK, "rows": len(panel.columns["from"]), "blocks": panel.blocks, "found": panel.found()}, separators=(",", ":"))
    return f'{headed(panel, parts)}<script type="application/json" class="packed">{escape(data, quote=False)}</script>'


def is_marked(panel: Whole) -> bool:
    return bool(panel.mark) and panel.first <= panel.mark.cycle <= panel.last
