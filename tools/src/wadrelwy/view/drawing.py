"""`svg`: a picture, a row for each instruction and a column for each cycle; colours and letters tell what it does.

What an instruction does in each cycle is told by `spans`; here is its layout. Lengths are in pixels.
"""
from html import escape
from itertools import islice

from .listing import IN_FLIGHT, tip
from .reasons import (
    ADDRESS_PORT, BASE, DATA, DATA_PORT, DELAYED, DELAYED_OUTCOME, DIVIDER, HELD_BACK, MISS_REGISTER, OLDER_STORE, OPERAND, PORT, STORE_ADDRESS, STORE_DATA,
    STORE_TAINT, TAINT, TAINTED_CLEARING, TAINTED_OUTCOME, TWO_REGISTERS)
from .spans import DONE, QUEUE, RENAMED, RETIRED, SQUASHED, TRAPPED, spans_of

BEFORE, SPAN = 30, 80
MOST_ROWS = 1000
CELL, ROW, CHARACTER = 13, 15, 6.1
TOP, FOOT, MARGIN, GAP = 58, 48, 8, 24
LONGEST_LABEL, SERIAL = 48, 34
LEGEND_COLUMN, LEGEND_ROW = 208, 18

# name: letter, colour, colour of the letter, what the legend says
STATES = {
    QUEUE: ("q", "#e6e6e6", "#555", "fetched, in the queue"),
    RENAMED: ("n", "#c6d6ea", "#234", "renamed"),
    OPERAND: ("o", "#fdf3c4", "#765", "waits for an operand"),
    TAINT: ("t", "#d7301f", "#fff", "held by taint"),
    HELD_BACK: ("k", "#d7301f", "#fff", "a load's result is held back"),
    DELAYED: ("y", "#d7301f", "#fff", "delayed until it is visible"),
    OLDER_STORE: ("s", "#d9c29b", "#432", "waits for an older store"),
    STORE_ADDRESS: ("a", "#d9c29b", "#432", "waits for an older store's address"),
    STORE_DATA: ("s", "#d9c29b", "#432", "waits for an older store's data"),
    STORE_TAINT: ("t", "#d7301f", "#fff", "held by taint of a store's address"),
    BASE: ("b", "#fdf3c4", "#765", "store: waits for its base"),
    DATA: ("w", "#fbe8a0", "#765", "store: waits for its data"),
    PORT: ("p", "#f4c7dc", "#524", "waits for a port"),
    ADDRESS_PORT: ("p", "#f4c7dc", "#524", "store: waits for the address port"),
    DATA_PORT: ("p", "#f4c7dc", "#524", "store: waits for the data port"),
    MISS_REGISTER: ("r", "#e9a3c9", "#413", "waits for a miss register"),
    TWO_REGISTERS: ("r", "#e9a3c9", "#413", "waits for two miss registers"),
    DIVIDER: ("v", "#cab2d6", "#324", "waits for the divider"),
    "alu": ("+", "#6fa8dc", "#123", "executes: simple, jump"),
    "mul": ("*", "#4f7fc4", "#fff", "executes: multiplication"),
    "div": ("/", "#8e6bb8", "#fff", "executes: division"),
    "agu": ("S", "#5ab4ac", "#033", "executes: store"),
    "hit": ("H", "#4daf4a", "#fff", "load: hit"),
    "miss": ("M", "#f08c2e", "#310", "load: miss"),
    "join": ("J", "#f6c445", "#310", "load: joins a miss"),
    "second": ("2", "#c98b2e", "#310", "load: second level"),
    "forward": ("F", "#7fd3ee", "#023", "load: forwarded"),
    "fault": ("X", "#7a5230", "#fff", "load: faults"),
    DONE: ("d", "#d5e8d4", "#465", "done"),
    TAINTED_OUTCOME: ("t", "#f0907f", "#300", "done, outcome held by taint"),
    TAINTED_CLEARING: ("c", "#f0907f", "#300", "store: clearing held by taint"),
    DELAYED_OUTCOME: ("y", "#f0907f", "#300", "done, outcome delayed"),
    RETIRED: ("R", "#222222", "#fff", "retires"),
    TRAPPED: ("!", "#d4b106", "#000", "traps"),
    SQUASHED: ("x", "none", "#c00", "is squashed"),
}
OUTCOMES = "T, N, J: resolved as taken, not taken, a jump; framed: mispredicted, and what is younger is squashed"


class Panel:
    """One trace's part of a picture: the rows of its instructions in a span of cycles, from the first to the last.

    `mark` is where it is first unequal to the other trace, if it is. With `named_rows` a page finds its rows, whose labels it has in whole;
    `facts` are what the page says of where the trace is from, `letter` is the panel's where there are two.
    """

    named_rows, letter = False, ""

    def __init__(self, title, replay, disassembler, span, mark=None):
        first, last = span
        self.title, self.disassembler, self.first, self.mark = title, disassembler, first, mark
        self.facts = []
        there = (item for item in replay.items(last) if item.gone is None or item.gone >= first)
        self.items = list(islice(there, MOST_ROWS))
        more = next(there, None)
        end, pipeline = replay.trace.end, replay.pipeline
        self.only = self.only_symbol()
        self.still = IN_FLIGHT if end else f"in flight in cycle {min(last, pipeline.cycle)}, the last that is shown"
        self.subtitle = end.text if end else f"shown up to cycle {min(last, pipeline.cycle)}"
        self.subtitle += f", all in <{self.only}>" if self.only else ""
        self.subtitle += f", the first {MOST_ROWS} instructions; the next is fetched in cycle {more.fetched}" if more is not None else ""
        self.last = min(last, pipeline.cycle)
        self.fills = [(cycle, line) for cycle, line in pipeline.fills if first <= cycle <= self.last]
        self.whole_labels = [self.label(item) for item in self.items]
        self.labels = [shortened(label) for label in self.whole_labels]
        self.label_width, self.whole_width = (self.width_of(labels) for labels in (self.labels, self.whole_labels))
        self.chart_width = (self.last - first + 1) * CELL + MARGIN
        if mark is not None:
            self.chart_width = max(self.chart_width, len(self.mark_told()) * CHARACTER + MARGIN)
        self.height = TOP + ROW * len(self.items) + FOOT

    def names(self):
        """The names of what it shows."""
        return {name for item in self.items for _, _, name in spans_of(item, self.last + 1)}

    def has_outcomes(self):
        return any(item.outcome for item in self.items)

    def only_symbol(self):
        """The symbol in which all instructions stand, where it is one: it needn't be told of each."""
        symbols = {self.disassembler.image.function(item.pc) for item in self.items} - {""}
        return symbols.pop() if len(symbols) == 1 else None

    def label(self, item):
        tell = self.disassembler.address_and_text if self.only else self.disassembler.place
        return tell(item.pc)

    def width_of(self, labels):
        """How wide the column of these labels is."""
        return max([len(label) for label in labels] + [len(self.title), 20]) * CHARACTER + SERIAL + 2 * MARGIN

    def x(self, cycle):
        return (cycle - self.first) * CELL

    def y(self, row):
        return TOP + row * ROW

    def heading_drawn(self):
        """The title, and how the run ended."""
        return (f'<text class="title" x="{MARGIN}" y="16">{escape(self.title)}</text>\n'
                f'<text class="faint" x="{MARGIN}" y="31">{escape(self.subtitle)}</text>')

    def labels_drawn(self):
        """The column of instructions, those that were squashed struck through."""
        labels = self.whole_labels if self.named_rows else self.labels
        lines = [line for row, (item, label) in enumerate(zip(self.items, labels)) for line in self.label_drawn(row, item, label)]
        lines.append(f'<text class="faint" x="{MARGIN}" y="{self.y(len(self.items)) + 14}">lines that come to the cache</text>')
        return "\n".join(filter(None, lines))

    def label_drawn(self, row, item, label):
        """An instruction's serial and its text."""
        struck, y = ' class="struck"' if item.squashed is not None else "", self.y(row) + 11
        yield f'<g class="label" data-row="{row}" role="button" tabindex="-1" aria-pressed="false">' if self.named_rows else ""
        if item.serial >= 0:
            yield f'<text class="serial" x="{MARGIN + SERIAL - 6}" y="{y}">{item.serial}</text>'
        yield f'<text{struck} x="{MARGIN + SERIAL}" y="{y}">{escape(label)}</text>' + "</g>" * self.named_rows

    def chart_drawn(self, framed=True):
        """The grid, the rows, the lines that come, and the frame of the first unequal cycle, with what is told of it where it is asked for."""
        parts = [self.grid()]
        parts += [self.row_drawn(row, item) for row, item in enumerate(self.items)]
        y = self.y(len(self.items)) + 14
        parts += [f'<text class="fill" x="{self.x(cycle) + CELL / 2}" y="{y}">L<title>line {line:08x} comes in cycle {cycle}'
                  "</title></text>" for cycle, line in self.fills]
        if self.mark and self.first <= self.mark.cycle <= self.last:
            parts.append(self.frame() + (self.frame_told() if framed else ""))
        return "\n".join(parts)

    @property
    def fifths(self):
        return [cycle for cycle in range(self.first, self.last + 1) if cycle % 5 == 0]

    def numbers_drawn(self, y):
        """The number of every fifth cycle."""
        return "".join(f'<text class="number" x="{self.within(cycle)}" y="{y}">{cycle}</text>' for cycle in self.fifths)

    def within(self, cycle):
        """The middle of a cycle's number: of its column, but so that no edge cuts it."""
        half = len(str(cycle)) * CHARACTER / 2
        middle = self.x(cycle) + CELL / 2
        return middle if half <= middle <= self.chart_width - half else round(max(half, min(middle, self.chart_width - half)), 1)

    def grid(self):
        """Lines for every fifth cycle and row, and the numbers of these cycles above and below."""
        bottom = self.y(len(self.items))
        lines = [f"M{self.x(cycle)} {TOP - 4}V{bottom + 4}" for cycle in self.fifths]
        lines += [f"M0 {self.y(row)}H{self.chart_width - MARGIN}" for row in range(0, len(self.items) + 1, 5)]
        numbers = self.numbers_drawn(TOP - 8) + self.numbers_drawn(bottom + 30)
        return f'<path class="grid" d="{"".join(lines)}"/>{numbers}'

    def row_drawn(self, row, item):
        y = self.y(row)
        parts = [self.row_named(row, item) if self.named_rows else "<g>", f"<title>{escape(tip(item, self.disassembler, self.still))}</title>"]
        if self.named_rows:
            parts.append(f'<rect class="row" x="0" y="{y}" width="{self.chart_width:.0f}" height="{ROW}"/>')
        for first, behind, name in spans_of(item, self.last + 1):
            parts.append(self.span(y, first, behind, name, item))
        if item.resolved is not None and self.first <= item.resolved <= self.last:
            parts.append(self.outcome(y, item))
        return "".join(parts) + "</g>"

    def row_named(self, row, item):
        """The beginning of a row that a page finds: by its place, its address, its serial, and the cycles in which it is there."""
        serial = "" if item.serial < 0 else item.serial
        return (f'<g data-row="{row}" data-n="{escape(self.disassembler.image.symbol(item.pc))}" data-a="{item.pc:08x}" data-s="{serial}" '
                f'data-from="{item.fetched}" data-to="{self.last if item.gone is None else item.gone}">')

    def span(self, y, first, behind, name, item):
        """A box, and its letter in the first cell, unless the outcome of a branch stands there."""
        text = self.box(y, first, behind, name, ROW - 2)
        if max(first, self.first) <= self.last and behind > self.first and max(first, self.first) != item.resolved:
            x = self.x(max(first, self.first)) + CELL / 2
            text += f'<text class="letter" fill="{STATES[name][2]}" x="{x}" y="{y + 11}">{STATES[name][0]}</text>'
        return text

    def box(self, y, first, behind, name, height):
        low, high = max(first, self.first), min(behind, self.last + 1)
        if low >= high or STATES[name][1] == "none":
            return ""
        return (f'<rect x="{self.x(low)}" y="{y + 1}" width="{(high - low) * CELL - 1}" height="{height}" '
                f'fill="{STATES[name][1]}"/>')

    def outcome(self, y, item):
        colour = STATES[RETIRED if item.resolved == item.retired else DONE][2]
        x = self.x(item.resolved)
        wrong = f'<rect class="wrong" x="{x}" y="{y + 1}" width="{CELL - 1}" height="{ROW - 2}"/>' if item.mispredicted else ""
        return (f'{wrong}<text class="letter" font-weight="bold" fill="{colour}" x="{x + CELL / 2}" y="{y + 11}">'
                f"{item.outcome}</text>")

    def mark_told(self):
        """What is told of the first unequal cycle: what this trace alone has there."""
        here, more = " ".join(self.mark.only[:2]), " .." if len(self.mark.only) > 2 else ""
        return f"first unequal cycle: {self.mark.cycle}" + (f", only here: {here}{more}" if here else "")

    def frame(self):
        """The first unequal cycle framed."""
        bottom, x = self.y(len(self.items)) + 18, self.x(self.mark.cycle)
        return f'<rect class="frame" x="{x - 1}" y="{TOP - 4}" width="{CELL + 1}" height="{bottom - TOP + 4}"/>'

    def frame_told(self):
        """What is told of it, below it."""
        text, x = self.mark_told(), self.x(self.mark.cycle)
        width = len(text) * CHARACTER + MARGIN
        left = max(0, min(x - width / 2, self.chart_width - width))
        return f'<text class="framed" x="{left:.0f}" y="{self.y(len(self.items)) + 43}">{text}</text>'


STYLE = """text{font:10px "DejaVu Sans Mono",Menlo,Consolas,monospace;fill:#111}
.title{font-weight:bold;font-size:12px}.faint{fill:#666}.struck{fill:#a33;text-decoration:line-through}
.grid{stroke:#e2e2e2;fill:none}.number{fill:#666;text-anchor:middle}.fill{fill:#c96a12;text-anchor:middle}
.letter{text-anchor:middle;font-size:9px}.sample{stroke:#999;stroke-width:.5}.serial{text-anchor:end;fill:#666}
.wrong{fill:none;stroke:#f33;stroke-width:2}
.frame{fill:none;stroke:#c00;stroke-width:1.5}.framed{fill:#c00;font-weight:bold}
""" + "\n".join(f'.letter[fill="{colour}"]{{fill:{colour}}}' for colour in sorted({state[2] for state in STATES.values()}))


def shortened(label):
    """A label as a picture has it."""
    return label if len(label) <= LONGEST_LABEL else label[:LONGEST_LABEL - 2] + ".."


def used(panels):
    """The names of what the pictures show, in the legend's order."""
    names = {name for panel in panels for name in panel.names()}
    return [name for name in STATES if name in names]


def entries(panels):
    """What the legend says, of what is there: for each letter and colour (letter, colour, colour of the letter, texts)."""
    found = {}
    for name in used(panels):
        *looks, text = STATES[name]
        found.setdefault(tuple(looks), []).append(text)
    return [(*looks, "; ".join(texts)) for looks, texts in found.items()]


def legend(panels, width):
    """The legend's drawing and its height: the states that are there, and the letters of outcomes."""
    told = entries(panels)
    longest = max((len(text) for *_, text in told), default=0)
    column = max(LEGEND_COLUMN, round(CELL + 6 + longest * CHARACTER + 2 * MARGIN))
    columns = max(1, int(width // column))
    parts = []
    for place, (letter, colour, dark, text) in enumerate(told):
        x, y = MARGIN + place % columns * column, place // columns * LEGEND_ROW
        parts.append(f'<rect class="sample" x="{x}" y="{y}" width="{CELL}" height="{ROW - 2}" fill="{colour}"/>'
                     f'<text class="letter" fill="{dark}" x="{x + CELL / 2}" y="{y + 10}">{letter}</text>'
                     f'<text x="{x + CELL + 6}" y="{y + 10}">{text}</text>')
    rows = -(-len(told) // columns)
    if any(panel.has_outcomes() for panel in panels):
        parts.append(f'<text class="faint" x="{MARGIN}" y="{rows * LEGEND_ROW + 12}">{OUTCOMES}</text>')
        rows += 1
    return "\n".join(parts), rows * LEGEND_ROW + MARGIN


def picture(panels):
    """The panels side by side, and the legend below them."""
    parts, x = [], 0
    for panel in panels:
        parts.append(f'<g transform="translate({x},0)">{panel.heading_drawn()}\n{panel.labels_drawn()}</g>')
        parts.append(f'<g transform="translate({x + panel.label_width:.0f},0)">{panel.chart_drawn()}</g>')
        x += round(panel.label_width + panel.chart_width) + GAP
    width = max(x - GAP, 3 * LEGEND_COLUMN)
    top = max(panel.height for panel in panels)
    drawn, height = legend(panels, width)
    return svg("\n".join([f"<style>{STYLE}</style>", '<rect width="100%" height="100%" fill="white"/>', *parts,
                          f'<g transform="translate(0,{top})">{drawn}</g>']), width, top + height)


def svg(inside, width, height, top=0, name=""):
    """A drawing of its own: what lies from `top` to `height`, with a name for a page's style."""
    named = f' class="{name}" preserveAspectRatio="xMinYMin slice"' if name else ""
    return (f'<svg xmlns="http://www.w3.org/2000/svg"{named} width="{width:.0f}" height="{height - top:.0f}" '
            f'viewBox="0 {top} {width:.0f} {height - top:.0f}">\n{inside}\n</svg>')
