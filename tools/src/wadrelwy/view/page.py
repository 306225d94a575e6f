"""`html`: the picture as a page that stands alone. Instructions and cycles stay in sight where it is moved, two panels move together and
stand one below the other where it is narrow; one goes to a cycle, an instruction or a function; a touch of a row pins its times. Of two
unequal traces it opens at the first unequal cycle. How it looks stands in `page.css`, what it does in `page.js`."""
import os
from html import escape

from .drawing import CELL, MARGIN, OUTCOMES, ROW, STYLE, TOP, entries, svg

ABOVE = TOP - 28
CORNER = f'<title>drag to make labels wider</title><text class="faint" x="{MARGIN}" y="{TOP - 12}">&#8596; drag to widen</text>'


def beside(name):
    """The text of a file that stands beside this one."""
    with open(os.path.join(os.path.dirname(os.path.abspath(__file__)), name), encoding="utf-8") as file:
        return file.read()


def page(panels):
    """The page of one or two panels."""
    for panel, letter in zip(panels, "AB" if len(panels) > 1 else [""]):
        panel.named_rows, panel.letter = True, letter
    return framed(panels, map(panel_drawn, panels), "page.js")


def framed(panels, drawn, script, more=""):
    """The page around its panels: what stands above and below them, and what it does."""
    title = " / ".join(panel.title for panel in panels)
    script = f"const CELL = {CELL}, ROW = {ROW};\n{beside('labels.js')}\n{beside(script)}"
    return "\n".join([
        '<!DOCTYPE html>', '<html lang="en"><head><meta charset="utf-8">', '<meta name="viewport" content="width=device-width, initial-scale=1">',
        f"<title>{escape(title)}</title>", f"<style>{STYLE}\n{beside('page.css')}</style></head><body>",
        '<form><input id="where" placeholder="cycle, #serial, function" aria-label="cycle, #serial, function or address">'
        '<button>Go</button><span>labels <button type="button" id="narrower" aria-label="narrower labels">&#8722;</button> '
        f'<button type="button" id="wider" aria-label="wider labels">+</button></span>{more}<span id="told"></span></form>',
        '<div class="panels">', *drawn, "</div>",
        legend(panels), '<div id="pins"></div>', f"<script>{script}</script>", "</body></html>"])


def legend(panels):
    """What the colours and letters say, of those that are there: an item for each colour, with its letters."""
    colours = {}
    for letter, colour, dark, text in entries(panels):
        colours.setdefault(colour, []).append(f'<span style="background:{colour};color:{dark}">{escape(letter)}</span>{escape(text)}')
    items = [f"<li>{''.join(told)}</li>" for told in colours.values()]
    outcomes = f"<p>{escape(OUTCOMES)}</p>" if any(panel.has_outcomes() for panel in panels) else ""
    return f'<ul class="legend">{"".join(items)}</ul>{outcomes}<p>How to read it: docs/view.md of Wadrelwy, "Pictures".</p>'


def panel_drawn(panel):
    """A heading, and four drawings: above the instructions nothing, above the cycles their numbers."""
    head, rest, labels, chart = TOP - 6, panel.height, panel.whole_width, panel.chart_width
    parts = [svg(CORNER, labels, head, ABOVE, "corner"), svg(panel.numbers_drawn(TOP - 12), chart, head, ABOVE, "numbers"),
             svg(panel.labels_drawn(), labels, rest, head, "labels"), svg(column(panel) + panel.chart_drawn(framed=False), chart, rest, head)]
    return headed(panel, parts)


def headed(panel, parts):
    """A panel's heading, and its chart of four parts."""
    title = f"{panel.letter}: {panel.title}" if panel.letter else panel.title
    told = "".join(f"<p>{escape(text)}</p>" for text in (*panel.facts, panel.subtitle))
    widths = f"--labels:{panel.label_width:.0f}px;--whole:{panel.whole_width:.0f}px"
    return (f'<div class="panel"><h2>{escape(title)}</h2>{told}{mark_linked(panel)}\n'
            f'<div class="chart" style="{widths}" data-title="{escape(title if panel.letter else "")}" data-first="{panel.first}" '
            f'data-last="{panel.last}"{mark_named(panel)}>{"".join(parts)}</div></div>')


def mark_linked(panel):
    """What is told of the first unequal cycle, as a link to it where the page has it."""
    if not panel.mark:
        return ""
    told, there = escape(panel.mark_told()), panel.first <= panel.mark.cycle <= panel.last
    return f'<p class="mark">{told_as_link(told, panel.mark.cycle) if there else told}</p>'


def told_as_link(told, cycle):
    return f'<a class="go" href="#{cycle}">{told}</a>'


def mark_named(panel):
    """The first unequal cycle and the entry that is unequal there, for what the page does."""
    if not panel.mark:
        return ""
    return f' data-mark="{panel.mark.cycle}"' + (f' data-serial="{panel.mark.serial}"' if panel.mark.serial is not None else "")


def column(panel):
    """What shows the cycle that one has gone to."""
    return f'<rect class="column" visibility="hidden" x="0" y="0" width="{CELL}" height="{panel.height}"/>'
