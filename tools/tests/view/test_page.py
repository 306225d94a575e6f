"""The page in a real browser, headless Chromium, at three widths: where panels stand, that they move together, what one goes to, pins."""
import html
import json
import os
import re
import shutil
import struct
import subprocess
import tempfile
import unittest
import zlib

import support
from programs import EXIT
from test_pictures import panels
from wadrelwy.riscv.encoding import addi, blt, lw
from wadrelwy.view import difference, drawing, page, whole
from wadrelwy.view.drawing import STATES
from wadrelwy.view.items import NEVER
from wadrelwy.view.trace import Trace

CHROMIUM = shutil.which("chromium") or shutil.which("chromium-browser")
NO_CHROMIUM = None if CHROMIUM else "no chromium"
WIDTHS = 420, 900, 1600

# a busy machine's browser may have no time to tell of a scroll, so it is told here
MEASURE = """<script>addEventListener('load',()=>{const found={},charts=[...document.querySelectorAll('.chart')];
const box=element=>{const one=element.getBoundingClientRect();return [one.left,one.top,one.right,one.bottom].map(Math.round)};
found.wide=document.documentElement.scrollWidth;found.inner=innerWidth;
found.panels=[...document.querySelectorAll('.panel')].map(box);
found.cycles=charts.map(chart=>chart.clientWidth-chart.querySelector('.labels').getBoundingClientRect().width);
found.cut=[...document.querySelectorAll('.legend li,h2,.panel p,form')].filter(one=>one.scrollWidth>one.clientWidth+1).length;
clear();setTimeout(()=>{charts[0].scrollLeft=0;charts[0].dispatchEvent(new Event('scroll'));charts[0].scrollLeft=30;charts[0].dispatchEvent(new Event('scroll'));setTimeout(()=>{found.moved=charts.map(chart=>chart.scrollLeft);
setTimeout(()=>{go('16');found.column=charts.map(chart=>chart.querySelector('.column').getAttribute('visibility'));
found.seen=charts.map(chart=>{const one=box(chart.querySelector('.column')),all=box(chart);return one[0]>=all[0]&&one[2]<=all[2]+1});
go('#5');found.serial=[...document.querySelectorAll('.found')].map(row=>row.dataset.a);
go('_start');found.name=[...document.querySelectorAll('.found')].map(row=>row.dataset.row);
go('nowhere');found.told=document.getElementById('told').textContent;
document.querySelectorAll('.label')[5].dispatchEvent(new MouseEvent('click',{bubbles:true}));found.pinned=document.getElementById('pins').textContent;
document.querySelector('#pins pre').click();found.unpinned=document.getElementById('pins').textContent;
const key=(where,name)=>where.dispatchEvent(new KeyboardEvent('keydown',{key:name,bubbles:true,cancelable:true}));
found.reached=charts.map(chart=>chart.querySelectorAll('.label[tabindex="0"]').length);
const label=charts[1].querySelector('.label[tabindex="0"]');label.focus();key(label,'ArrowDown');key(document.activeElement,'ArrowDown');
found.stepped=document.activeElement.dataset.row;key(document.activeElement,'Enter');found.keyed=document.getElementById('pins').textContent;
found.pressed=document.activeElement.getAttribute('aria-pressed');
key(document.activeElement,'Escape');found.escaped=document.getElementById('pins').textContent;
found.labels=[widthOf(charts[0])];for(const name of ['wider','narrower','narrower']){document.getElementById(name).click();found.labels.push(widthOf(charts[0]))}
parent.postMessage(JSON.stringify(found),'*')},200)},200)},200)})</script>"""
# where a page of two unequal traces opens, and what its link does once it was moved away
OPENED = """<script>addEventListener('load',()=>{const found={},charts=[...document.querySelectorAll('.chart')];
const box=element=>{const one=element.getBoundingClientRect();return [one.left,one.top,one.right,one.bottom]};
const within=(one,all)=>one[1]>=all[1]&&one[3]<=all[3];
const look=()=>({serials:[...document.querySelectorAll('.found')].map(row=>row.dataset.s),
rows:charts.map(chart=>{const row=chart.querySelector('.found');return !!row&&within(box(row.querySelector('.row')),box(chart))}),
columns:charts.map(chart=>{const one=box(chart.querySelector('.column')),all=box(chart);return one[0]>=all[0]&&one[2]<=all[2]+1}),
top:charts[0].scrollTop});
setTimeout(()=>{found.opened=look();clear();for(const chart of charts)chart.scrollTop=chart.scrollLeft=0;found.away=look();
document.querySelector('a.go').click();setTimeout(()=>{found.linked=look();
parent.postMessage(JSON.stringify(found),'*')},200)},300)})</script>"""
# a window of Chromium has at least 500 pixels, a frame may have fewer
FRAME = """<body style="margin:0"><script>addEventListener('message',event=>{document.body.dataset.found=event.data})</script>
<iframe src="measured.html" width="%d" height="800" style="border:0"></iframe></body>"""


def far_panels():
    """Two runs that are equal up to a load of entry 90, which finds another line."""
    words = [[*[addi(5, 0, 1)] * 90, lw(6, offset, 2), *EXIT] for offset in (0, -64)]
    images = [support.image_of_words(f"far_{side}", each) for side, each in enumerate(words)]
    described = support.example("core.toml")
    runs = [support.fresh(support.modelled(described, image, 100), image, described) for image in images]
    marks = difference.first_unequal([Trace(iter(support.modelled(described, image, 100))) for image in images])
    return [drawing.Panel(title, run, disassembler, (1, 60), mark) for title, (run, disassembler), mark in zip("AB", runs, marks)]


# a page of two whole runs: what it opens at, that few rows are drawn wherever it stands, how long a step takes, what is found and pinned
WHOLE = """<script>addEventListener('load',()=>{const found={};const box=one=>{const it=one.getBoundingClientRect();return [it.left,it.top,it.right,it.bottom]};
const rows=()=>wholes.map(whole=>[...whole.cells.querySelectorAll('g[data-row]')].map(row=>+row.dataset.row));
const pause=()=>new Promise(done=>setTimeout(done,60));
const settled=async()=>{await pause();for(const whole of wholes)await whole.draw();await pause()};
const seen=whole=>{const all=box(whole.chart),head=whole.head();return rows()[wholes.indexOf(whole)].filter(row=>{const one=box(whole.rowOf(row,1).querySelector('.row'));
return one[1]>=all[1]+head&&one[3]<=all[3]})};
(async()=>{await ready;await settled();found.rows=wholes.map(whole=>whole.rows);found.opened=wholes.map(seen);found.sought=wholes.map(whole=>whole.sought);found.drawn=rows().map(all=>all.length);
found.marked=wholes.map(whole=>{const row=[...document.querySelectorAll('.found')].find(one=>whole.cells.contains(one));return row?row.dataset.s:null});
const one=wholes[0];leader=null;one.chart.scrollTop=one.chart.scrollHeight;one.chart.dispatchEvent(new Event('scroll'));await settled();
found.last=Math.max(...rows()[0]);found.drawnThere=rows().map(all=>all.length);found.followed=one.chart.scrollLeft>1000;
found.together=wholes.map(whole=>whole.from[whole.top]);
await go('7');await settled();found.column=wholes.map(whole=>!whole.column.hidden&&box(whole.column)[0]>=box(whole.chart)[0]);found.atSeven=wholes.map(whole=>seen(whole).includes(whole.rowAt(7)));
await go('#'+one.serial[one.rows-3]);await settled();found.serial=[...document.querySelectorAll('.found')].map(row=>row.dataset.s);
await go('0x10004');const first=one.sought;await go('0x10004');found.next=[first,one.sought];found.places=[first,one.sought].map(row=>one.places[one.place[row]][0]);
await go('nowhere');found.told=told.textContent;
one.rowOf(one.sought,0).dispatchEvent(new MouseEvent('click',{bubbles:true}));found.pinned=pins.textContent;
await go('#'+one.serial[one.rows-3]);await settled();await go('#5');await settled();found.kept=one.pinned.size;
const key=async name=>{one.labels.dispatchEvent(new KeyboardEvent('keydown',{key:name,bubbles:true,cancelable:true}));await settled()};
await key('ArrowDown');await key('Enter');found.keyed=pins.textContent.includes('A: a \u2014 6 ');await key('Escape');found.escaped=pins.textContent;
found.numbers=[...one.numbers.querySelectorAll('span')].length;found.wide=document.documentElement.scrollWidth<=innerWidth;
document.body.dataset.found=JSON.stringify(found);if(parent!==window)parent.postMessage(JSON.stringify(found),'*')})()})</script>"""


def whole_panels():
    """Two runs of some hundred instructions, a loop and then a load that finds another line, as pages of the whole."""
    words = [[addi(6, 0, 20), addi(6, 6, -1), blt(0, 6, -4), *[addi(5, 0, 1)] * 220, lw(6, offset, 2), *[addi(5, 0, 1)] * 60, *EXIT] for offset in (0, -64)]
    images = [support.image_of_words(f"whole_{side}", each) for side, each in enumerate(words)]
    described = support.example("core.toml")
    lines = [support.modelled(described, image, 1000) for image in images]
    marks = difference.first_unequal([Trace(iter(each)) for each in lines])
    return [whole.Whole(title, *support.fresh(each, image, described), (1, NEVER), mark)
            for title, each, image, mark in zip("ab", lines, images, marks)]


def browse(folder, path, width, option):
    command = [CHROMIUM, "--headless=new", "--no-sandbox", "--disable-gpu", f"--user-data-dir={folder}/profile", f"--window-size={width},800",
               "--hide-scrollbars", "--virtual-time-budget=3000", option, "file://" + path]
    return subprocess.run(command, capture_output=True, text=True, timeout=120, cwd=folder).stdout


def pixels(path):
    """Width, height and the colours of a PNG of eight bits a channel."""
    with open(path, "rb") as file:
        data = file.read()
    width, height, _, kind = struct.unpack(">IIBB", data[16:26])
    depth, chunks, place = {2: 3, 6: 4}[kind], b"", 8
    while place < len(data):
        length, name = struct.unpack(">I4s", data[place:place + 8])
        chunks += data[place + 8:place + 8 + length] if name == b"IDAT" else b""
        place += 12 + length
    raw, lines, above = zlib.decompress(chunks), [], bytes(width * depth)
    for row in range(height):
        start = row * (width * depth + 1)
        above = unfiltered(raw[start], bytearray(raw[start + 1:start + 1 + width * depth]), above, depth)
        lines.append([bytes(above[at:at + 3]) for at in range(0, width * depth, depth)])
    return width, height, lines


def unfiltered(kind, line, above, depth):
    for at, value in enumerate(line):
        left, up, corner = (line[at - depth] if at >= depth else 0), above[at], (above[at - depth] if at >= depth else 0)
        guess = left + up - corner
        nearest = min((left, up, corner), key=lambda one: abs(guess - one))
        line[at] = value + (0, left, up, (left + up) // 2, nearest)[kind] & 255
    return line


@unittest.skipIf(NO_CHROMIUM, NO_CHROMIUM)
class Browser(unittest.TestCase):
    def setUp(self):
        self.folder = tempfile.TemporaryDirectory()
        self.addCleanup(self.folder.cleanup)
        both = panels()
        for panel in both:
            panel.whole_width += 300
        self.write(page.page(both), MEASURE)

    def path(self, name):
        return os.path.join(self.folder.name, name)

    def write(self, text, script):
        """The page as it is, and with a script that measures it."""
        for name, more in (("plain", ""), ("measured", script)):
            with open(self.path(name + ".html"), "w", encoding="utf-8") as file:
                file.write(text.replace("</body>", more + "</body>"))

    def measured(self, width):
        with open(self.path("frame.html"), "w", encoding="utf-8") as file:
            file.write(FRAME % width)
        told = browse(self.folder.name, self.path("frame.html"), width, "--dump-dom")
        return json.loads(html.unescape(re.search(r'data-found="([^"]*)"', told)[1]))

    def test_at_three_widths(self):
        for width in WIDTHS:
            with self.subTest(width=width):
                found = self.measured(width)
                self.assertEqual((found["wide"], found["inner"], found["cut"]), (width, width, 0))
                self.assertTrue(all(cycles >= 150 for cycles in found["cycles"]), found["cycles"])
                one, two = found["panels"]
                self.assertTrue(two[1] >= one[3] if width < 900 else two[1] == one[1] if width > 900 else True, found["panels"])
                self.assertEqual(found["moved"], [30, 30] if width == 420 else [0, 0] if width == 1600 else [found["moved"][0]] * 2)
                self.assertEqual((found["column"], found["seen"]), (["visible"] * 2, [True] * 2))
                self.assertEqual((found["serial"], found["name"]), (["00010014"] * 2, ["0"] * 2))
                self.assertIn("nowhere isn’t on this page (cycles 1 to 23)", found["told"])
                self.assertTrue(found["pinned"].startswith("A: under <spectre> \u2014 5 00010014 load x7, x6 <_start+0x14>"), found["pinned"])
                self.assertEqual(found["unpinned"], "")
                self.assertEqual((found["reached"], found["stepped"], found["pressed"], found["escaped"]), ([1, 1], "2", "true", ""))
                self.assertTrue(found["keyed"].startswith("B: under futuristic \u2014 2 00010008 "), found["keyed"])
                first, wider, again, narrower = found["labels"]
                self.assertTrue(first < wider and narrower < again < wider, found["labels"])

    def test_it_opens_at_the_first_unequal_cycle(self):
        """The load that differs is 90 instructions behind the first row, and seen all the same; the link comes back to it."""
        self.write(page.page(far_panels()), OPENED)
        for width in (900, 1600):
            with self.subTest(width=width):
                found = self.measured(width)
                seen = {"serials": ["90"] * 2, "rows": [True] * 2, "columns": [True] * 2}
                self.assertGreater(found["opened"].pop("top"), 800)
                self.assertEqual(found["opened"], seen)
                self.assertEqual((found["away"]["rows"], found["away"]["top"]), ([False] * 2, 0))
                self.assertGreater(found["linked"].pop("top"), 800)
                self.assertEqual(found["linked"], seen)

    def test_the_whole_of_a_run(self):
        """Of 323 and more rows those in sight are drawn, wherever the page stands; what is gone to and pinned is there."""
        both = whole_panels()
        self.write(whole.page(both), WHOLE)
        found = self.measured(1600)
        self.assertTrue(all(rows >= 323 for rows in found["rows"]), found["rows"])
        self.assertEqual(found["marked"], [str(panel.mark.serial) for panel in both])
        for opened, sought, drawn in zip(found["opened"], found["sought"], found["drawn"]):
            self.assertIn(sought, opened)
            self.assertLessEqual(drawn, 300)
        self.assertEqual(found["last"], found["rows"][0] - 1)
        self.assertTrue(all(drawn <= 300 for drawn in found["drawnThere"]), found["drawnThere"])
        self.assertTrue(found["followed"])
        self.assertLess(abs(found["together"][0] - found["together"][1]), 4)
        self.assertEqual((found["column"], found["atSeven"], found["serial"]), ([True] * 2, [True] * 2, [found["serial"][0]] * 2))
        self.assertLess(found["next"][0], found["next"][1])
        self.assertEqual(found["places"], ["00010004"] * 2)
        self.assertRegex(found["told"], r"^nowhere isn’t on this page \(cycles 1 to \d+\)$")
        self.assertRegex(found["pinned"], r"^A: a — \d+ 0001[0-9a-f]{4} ")
        self.assertEqual((found["kept"], found["keyed"], found["escaped"], found["wide"]), (1, True, "", True))
        self.assertGreater(found["numbers"], 5)

    def test_what_is_seen(self):
        """Of each width the colours of what the first rows do."""
        for width in WIDTHS:
            with self.subTest(width=width):
                name = f"seen{width}.png"
                browse(self.folder.name, self.path("plain.html"), width, f"--screenshot={self.path(name)}")
                wide, _, lines = pixels(self.path(name))
                self.assertEqual(wide, width)
                for state in ("div", "miss", "taint"):
                    colour = bytes.fromhex(STATES[state][1][1:])
                    self.assertGreater(sum(line.count(colour) for line in lines), 300, state)
