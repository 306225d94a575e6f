"""Plots as SVG: the slowdown of each program under each defence, and curves over a size. Lengths are in pixels."""
import math
import re
from collections import Counter
from html import escape

from wadrelwy.view.description import OFF

from . import results, settings

# a colour and a dash for each defence: where curves lie on one another, each is seen in the gaps of the next
ORDER = [settings.told(values) for values in settings.DEFENCES]
COLOURS = ["#555555", "#2e86c1", "#c0392b", "#7fb3d5", "#e6a49c", "#1b4f72", "#7b241c", "#1e8449", "#b9770e"]
DASHES = ["none", "none", "9 6", "3 4", "9 4 2 4", "14 5", "1 3", "6 3 2 3 2 3", "2 6"]
HEIGHT, LEFT, TOP, BOTTOM, RIGHT = 190, 58, 46, 44, 16
MOST_PANELS = 100
FILES = re.compile(r"bars\.svg|curve-.*\.svg")
BAR, BETWEEN, CURVE = 9, 14, 420
# of names below bars: how they are turned, in degrees, how far below the axis they end, and how wide a character is at most
TURNED, BELOW, CHARACTER = 28, 14, 6.8


class Drawing:
    """Pieces of a picture, one below the other; how wide and how high it becomes is told by what was drawn."""

    def __init__(self):
        self.pieces, self.width, self.height = [], 0, 0

    def text(self, x, y, words, anchor="middle", size=11, more=""):
        self.pieces.append(f'<text x="{x:.1f}" y="{y:.1f}" font-size="{size}" text-anchor="{anchor}" {more}>{escape(words)}</text>')

    def line(self, x1, y1, x2, y2, colour="#ccc"):
        self.pieces.append(f'<line x1="{x1:.1f}" y1="{y1:.1f}" x2="{x2:.1f}" y2="{y2:.1f}" stroke="{colour}"/>')

    def box(self, x, y, width, height, colour, tip):
        self.pieces.append(f'<rect x="{x:.1f}" y="{y:.1f}" width="{width:.1f}" height="{height:.1f}" fill="{colour}">'
                           f"<title>{escape(tip)}</title></rect>")

    def svg(self):
        return (f'<svg xmlns="http://www.w3.org/2000/svg" viewBox="0 0 {self.width:.0f} {self.height:.0f}" width="{self.width:.0f}" '
                f'height="{self.height:.0f}" font-family="sans-serif" fill="#222">\n<rect width="100%" height="100%" fill="white"/>\n'
                + "\n".join(self.pieces) + "\n</svg>\n")


class Scale:
    """Where a value stands on an axis from `low` to `high`, and its marks. What is hardly below 0 has no room of its own there."""

    def __init__(self, values, top):
        self.low, high = min([0, *values]), max([0, *values])
        span = (high - self.low) or 0.01
        step = 10 ** math.floor(math.log10(span))
        self.step = next(step * by for by in (0.1, 0.2, 0.5, 1, 2) if span / (step * by) <= 6)
        self.low = math.floor(self.low / self.step + 0.1) * self.step
        self.high = math.ceil(high / self.step - 1e-9) * self.step or self.step
        self.top = top

    def y(self, value):
        return self.top + HEIGHT * (self.high - value) / (self.high - self.low)

    def marks(self):
        return [self.low + i * self.step for i in range(round((self.high - self.low) / self.step) + 1)]


def percent(value):
    return f"{100 * value:+.1f} %".replace("+0.0", "0.0").replace("-0.0", "0.0")


def told(spread):
    """How many slowdowns a mean is of, and how far apart they lie."""
    return f"n {spread.n}, median {percent(spread.median)}, {percent(spread.least)} to {percent(spread.most)}"


def heading(drawing, x, y, title, size=13, more='font-weight="bold"'):
    """A title, for which the picture is wide enough."""
    drawing.text(x, y, title, "start", size, more)
    drawing.width = max(drawing.width, x + 0.62 * size * len(title) + RIGHT)


def axis(drawing, scale, left, right, told):
    for mark in scale.marks():
        drawing.line(left, scale.y(mark), right, scale.y(mark), "#888" if abs(mark) < 1e-12 else "#ddd")
        drawing.text(left - 6, scale.y(mark) + 4, told(mark), "end")


def legend(drawing, names, colours, x, y):
    for name in names:
        drawing.box(x, y - 9, 10, 10, colours[name], name)
        drawing.text(x + 14, y, name, "start")
        x += 30 + 6.5 * len(name)
    drawing.width = max(drawing.width, x)


def room(names):
    """What turned names take to the left of where they end, and below the axis."""
    longest, angle = CHARACTER * max(map(len, names), default=0), math.radians(TURNED)
    return longest * math.cos(angle), BELOW + longest * math.sin(angle)


def colours_of(defences):
    return {name: COLOURS[ORDER.index(name)] for name in defences}


def bars(found):
    """A panel for each description and what is set besides, with the defences' bars of each program and of their mean; all of one scale."""
    defences, drawing = results.defences_of(found), Drawing()
    colours, free = colours_of(defences), [row for row in found if row.slowdown is not None]
    before, below = room({row.program for row in free})
    left, bottom = max(LEFT, before - BAR * len(defences) / 2), max(BOTTOM, below + BETWEEN)
    means, parts = {}, results.groups(free)
    for title, rows in parts.items():
        for defence in defences:
            each = [row.slowdown for row in rows if row.defence == defence]
            means[title, defence] = results.spread(each) if each else None
    whole = [row.slowdown for row in free] + [spread.mean for spread in means.values() if spread]
    for title, rows in parts.items():
        top = drawing.height + TOP
        programs = list(dict.fromkeys(row.program for row in rows))
        slowdowns, tips = {(row.program, row.defence): row.slowdown for row in rows}, {}
        for defence in defences:
            if means[title, defence]:
                slowdowns["mean", defence] = means[title, defence].mean
                tips["mean", defence] = f" ({told(means[title, defence])})"
        scale, step = Scale(whole, top), BAR * len(defences) + BETWEEN
        right = left + step * (len(programs) + 1)
        drawing.width, drawing.height = max(drawing.width, right + RIGHT), top + HEIGHT + bottom
        heading(drawing, left, top - 26, f"slowdown against no protection: {title}; mean of n = {len(programs)}")
        legend(drawing, defences, colours, left, top - 10)
        axis(drawing, scale, left, right, percent)
        for place, program in enumerate([*programs, "mean"]):
            group(drawing, scale, left + step * place + BETWEEN / 2, program,
                  [(it, slowdowns.get((program, it)), tips.get((program, it), "")) for it in defences], colours)
    return drawing.svg()


def group(drawing, scale, x, program, values, colours):
    """The bars of a program, and its name below them."""
    weight = 'font-weight="bold"' if program == "mean" else ""
    middle, foot = x + BAR * len(values) / 2, scale.top + HEIGHT + BELOW
    drawing.text(middle, foot, program, "end", 11, f'{weight} transform="rotate(-{TURNED} {middle:.1f} {foot:.1f})"')
    for place, (defence, value, more) in enumerate(values):
        if value is not None:
            length = max(abs(scale.y(value) - scale.y(0)), 1)
            drawing.box(x + BAR * place, scale.y(0) - (length if value >= 0 else 0), BAR - 1, length, colours[defence],
                        f"{program}, {defence}: {percent(value)}{more}")


def curves(found, key):
    """Over the values of a key, for each description: the mean of instructions a cycle under each defence, and that of the slowdowns."""
    drawing, defences = Drawing(), results.defences_of(found)
    free = [OFF] if any(row.defence == OFF for row in found) else []
    for description in dict.fromkeys(row.description for row in found):
        rows = [row for row in found if row.description == description and row.exits]
        top, left = drawing.height + TOP + 16, LEFT
        speeds = series(rows, key, [*free, *defences], lambda row: row.retired / row.cycles, geometric)
        left = panel(drawing, left, top, f"{description}: instructions a cycle", key, speeds, lambda value: f"{value:.2f}")
        costs = series([row for row in rows if row.slowdown is not None], key, defences, lambda row: row.slowdown, results.mean)
        if costs:
            panel(drawing, left + LEFT + RIGHT, top, f"{description}: slowdown", key, costs, percent)
        heading(drawing, LEFT, top - 42, of_what(rows, key), 11, "")
        drawing.height = top + HEIGHT + BOTTOM
    return drawing.svg()


def of_what(rows, key):
    """Of what each point of the curves is the mean."""
    programs, others = {row.program for row in rows}, {}
    for row in rows:
        for other, value in row.rest.items():
            others.setdefault(other, {})[value] = None
    several = [f"{other} {', '.join(map(str, values))}" for other, values in others.items() if other != key and len(values) > 1]
    counts = Counter((row.defence, row.values[key]) for row in rows).values()
    n = f"{min(counts, default=0)}" + (f" to {max(counts)}" if len(set(counts)) > 1 else "")
    return f"each point: the mean of n = {n} runs that exited, over {len(programs)} programs" + "".join(f" and {each}" for each in several)


def geometric(values):
    return math.exp(sum(map(math.log, values)) / len(values))


def series(rows, key, defences, value, mean):
    """For each defence the points of its curve."""
    found = {}
    for defence in defences:
        at = {}
        for row in rows:
            if row.defence == defence and value(row) is not None and (mean is not geometric or value(row) > 0):
                at.setdefault(row.values[key], []).append(value(row))
        found |= {defence: sorted((size, mean(values)) for size, values in at.items())} if at else {}
    return found


def panel(drawing, left, top, title, key, curves_of, told):
    """One system of axes with its curves. Answers where it ends."""
    sizes = sorted({size for points in curves_of.values() for size, _ in points})
    scale, right = Scale([value for points in curves_of.values() for _, value in points], top), left + CURVE
    colours = colours_of(curves_of)
    drawing.text(left, top - 26, title, "start", 13, 'font-weight="bold"')
    legend(drawing, curves_of, colours, left, top - 10)
    axis(drawing, scale, left, right, told)
    drawing.text((left + right) / 2, top + HEIGHT + 32, key)

    def x(size):
        return left + 12 + (CURVE - 24) * (size - sizes[0]) / (sizes[-1] - sizes[0])

    for size in sizes:
        drawing.text(x(size), top + HEIGHT + 16, str(size))
    for name, points in curves_of.items():
        dots = " ".join(f"{x(size):.1f},{scale.y(value):.1f}" for size, value in points)
        drawing.pieces.append(f'<polyline points="{dots}" fill="none" stroke="{colours[name]}" stroke-width="2" '
                              f'stroke-dasharray="{DASHES[ORDER.index(name)]}"/>')
        for size, value in points:
            drawing.pieces.append(f'<circle cx="{x(size):.1f}" cy="{scale.y(value):.1f}" r="3" fill="{colours[name]}">'
                                  f"<title>{escape(f'{name}, {key} {size}: {told(value)}')}</title></circle>")
    drawing.width = max(drawing.width, right + RIGHT)
    return right


def panels(found):
    """How many panels the bars of these rows have: descriptions, and what is set besides model and defence."""
    return len(results.groups([row for row in found if row.slowdown is not None]))


def all_of(found, whole=False):
    """The plots that these rows allow, by the names of their files. Bars of more panels than one looks at are left out, unless the whole is
    asked for."""
    files = {}
    if any(row.slowdown is not None and row.defence != OFF for row in found) and (whole or panels(found) <= MOST_PANELS):
        files["bars.svg"] = bars(found)
    for key in found[0].rest if found else ():
        sizes = {row.values[key] for row in found if row.exits}
        if len(sizes) > 1 and all(isinstance(size, int) for size in sizes):
            files[f"curve-{key}.svg"] = curves(found, key)
    return files


def summary(found):
    """A line for each description and what is set besides: the mean slowdown under each defence, of how many programs, and their spread."""
    for title, rows in results.groups([row for row in found if row.slowdown is not None]).items():
        means = [(defence, results.spread([row.slowdown for row in rows if row.defence == defence])) for defence in results.defences_of(rows)]
        if means:
            yield f"{title}: mean slowdown " + ", ".join(f"{percent(each.mean)} under {defence} ({told(each)})" for defence, each in means)
    if any(row.slowdown is not None and row.slowdown < 0 for row in found):
        yield f"Some are faster than without protection. {settings.FASTER}"
