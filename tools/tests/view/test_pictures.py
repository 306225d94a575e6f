"""Pictures: what an instruction does in each cycle, and that what is drawn shows it; the difference of two traces."""
import re
import unittest
from xml.etree import ElementTree

import support
from wadrelwy.riscv import kinds
from wadrelwy.view import description, difference, drawing, konata, page, pipeline, reasons, spans
from wadrelwy.view.spans import spans_of

SVG = "{http://www.w3.org/2000/svg}"


def fault_shadow():
    """The worked trace under spectre, and under futuristic, where cycle 16 is `16 done:4`."""
    spectre = support.worked_trace("Fault shadow")
    futuristic = [*spectre[:15], "16 done:4\n", *spectre[16:]]
    return [support.fresh(lines, support.example("fault_shadow.elf"), support.example(name))
            for lines, name in ((spectre, "core.toml"), (futuristic, "core_futuristic.toml"))]


def panels():
    titles = "under <spectre>", "under futuristic"
    marks = difference.first_unequal([run.trace for run, _ in fault_shadow()])
    return [drawing.Panel(title, run, disassembler, (1, 23), mark)
            for title, (run, disassembler), mark in zip(titles, fault_shadow(), marks)]


class Spans(unittest.TestCase):
    def test_an_instruction_is_somewhere_in_each_cycle_until_it_is_gone(self):
        _, _, items = support.bounds_check()
        for item in items:
            spans = spans_of(item, 22)
            self.assertEqual(spans[0][0], item.fetched)
            self.assertEqual(spans[-1][1], 22 if item.gone is None else item.gone + 1)
            for (_, behind, _), (first, _, _) in zip(spans, spans[1:]):
                self.assertEqual(behind, first)

    def test_each_reason_is_drawn(self):
        others = {*vars(kinds), *vars(description), *vars(pipeline)}
        told = {value for name, value in vars(reasons).items() if name.isupper() and isinstance(value, str) and name not in others}
        self.assertEqual(told - {*spans.WAITS, *spans.OUTCOMES}, {reasons.ONE_A_CYCLE, reasons.ONE_CLEARED})
        self.assertLessEqual({*spans.WAITS, *spans.OUTCOMES, *spans.UNITS}, set(drawing.STATES) & set(konata.STAGES))

    def test_the_load_that_is_held(self):
        _, entries, _ = support.bounds_check()
        self.assertEqual(spans_of(entries[6], 22), [(4, 5, "queue"), (5, 6, "renamed"), (6, 15, "operand"), (15, 17, "taint"),
                                                            (17, 18, "squashed")])


    def test_a_jump_whose_outcome_is_held(self):
        """The jump to a secret address is Done in 15 and is dropped in 17, not resolved."""
        files = support.example("target_injection.elf"), support.example("core.toml")
        _, entries, _ = support.replay(support.worked_trace("Jump to a secret address"), *files)
        self.assertEqual(spans_of(entries[5], 22)[-3:],
                         [(14, 15, "alu"), (15, 17, "taint, to be resolved"), (17, 18, "squashed")])


class Pictures(unittest.TestCase):
    def setUp(self):
        self.text = drawing.picture(panels())
        self.root = ElementTree.fromstring(self.text)

    def texts(self):
        return [element.text for element in self.root.iter(SVG + "text")]

    def test_both_panels_have_all_their_instructions(self):
        for name in ("00010000 division x9, x2, x2", "00010014 load x7, x6"):
            self.assertEqual(self.texts().count(name), 2, name)

    def test_a_symbol_that_all_have_is_told_once(self):
        self.assertEqual(self.texts().count("end trap 5 00010004 retired 1 cycles 23, all in <_start>"), 2)

    def test_the_first_unequal_cycle_is_framed_in_both(self):
        frames = [element for element in self.root.iter(SVG + "rect") if element.get("class") == "frame"]
        self.assertEqual(len(frames), 2)
        self.assertEqual({element.get("x") for element in frames}, {str(15 * drawing.CELL - 1)})
        self.assertIn("first unequal cycle: 16, only here: ld:5:0001f900:m", self.texts())
        self.assertIn("first unequal cycle: 16", self.texts())

    def test_only_futuristic_holds_the_load_by_taint(self):
        red = [element for element in self.root.iter(SVG + "rect") if element.get("fill") == drawing.STATES["taint"][1]]
        widths = [element.get("width") for element in red]
        self.assertEqual(widths, [str(8 * drawing.CELL - 1), str(drawing.CELL)])

    def test_the_legend_has_what_is_drawn(self):
        for text in ("held by taint", "load: miss", "executes: division", "load: faults", "traps"):
            self.assertIn(text, self.texts())
        self.assertNotIn("is squashed", self.texts())

    def test_what_is_squashed_is_struck_through(self):
        run, disassembler = support.fresh_bounds_check()
        root = ElementTree.fromstring(drawing.picture([drawing.Panel("a", run, disassembler, (1, 21))]))
        struck = [element.text for element in root.iter(SVG + "text") if element.get("class") == "struck"]
        self.assertEqual(len(struck), 7)
        self.assertIn("00010018 load x7, x6", struck)

    def test_the_legend_has_a_letter_and_colour_once(self):
        """Three ports are one letter in one colour; on the page a colour is one item."""
        for letter in "psr":
            self.assertEqual(len({state[1] for state in drawing.STATES.values() if state[0] == letter}), 1, letter)
        told = drawing.entries(panels())
        self.assertEqual(len(told), len({(letter, colour) for letter, colour, *_ in told}))
        text = page.legend(panels())
        self.assertEqual(text.count("<li>"), len({colour for _, colour, *_ in told}))

    def test_what_is_in_flight_where_a_picture_is_cut(self):
        run, disassembler = support.fresh_bounds_check()
        text = page.page([drawing.Panel("a", run, disassembler, (1, 8))])
        self.assertIn("in flight in cycle 8, the last that is shown", text)
        self.assertNotIn("in flight at the end", text)

    def test_a_page_has_labels_whole(self):
        one, _ = panels()
        one.whole_labels[3] = "0001000c " + "long " * 30
        self.assertIn("long " * 30, page.page([one]))

    def test_the_entry_that_is_unequal(self):
        marks = difference.first_unequal([run.trace for run, _ in fault_shadow()])
        self.assertEqual([(mark.cycle, mark.serial) for mark in marks], [(16, 5), (16, 5)])
        self.assertEqual(difference.entry_of(["fill:0001f900", "fet:00010000", "res:12:T", "ld:5:0001f900:m"]), 12)
        self.assertIsNone(difference.entry_of(["fill:0001f900"]))

    def test_a_page_stands_alone(self):
        text = page.page(panels())
        self.assertEqual(text.count("http"), text.count("http://www.w3.org/2000/svg"))
        self.assertIn("under &lt;spectre&gt;", text)
        ElementTree.fromstring(re.sub(r"<(meta|input)[^>]*>|<script>.*?</script>", "", text.split("\n", 1)[1], flags=re.S))


class Differences(unittest.TestCase):
    def lines(self, runs):
        found = difference.Difference([run.trace for run, _ in runs], [run for run, _ in runs])
        return list(difference.lines_of(found, [disassembler for _, disassembler in runs]))

    def test_the_last_load_issues_under_spectre_alone(self):
        self.assertEqual(self.lines(fault_shadow()), [
            "first unequal cycle: 16",
            "  only A: ld:5:0001f900:m         5 00010014 load x7, x6 <_start+0x14>"])

    def test_equal_traces(self):
        self.assertEqual(self.lines([support.fresh_bounds_check(), support.fresh_bounds_check()]), ["equal: 21 cycles"])

    def test_one_that_ends_before(self):
        whole = support.worked_trace("Bounds check bypass")
        cut = [*whole[:4], "end budget retired 0 cycles 4\n"]
        files = support.example("bounds_check.elf"), support.example("core.toml")
        found = self.lines([support.fresh(whole, *files), support.fresh(cut, *files)])
        self.assertEqual(found[0], "first unequal cycle: 5")
        self.assertEqual(found[-1], "  B ends before: end budget retired 0 cycles 4")

    def test_last_lines_that_differ(self):
        whole = support.worked_trace("Bounds check bypass")
        other = [*whole[:-1], "end exit 1 retired 5 cycles 21\n"]
        files = support.example("bounds_check.elf"), support.example("core.toml")
        self.assertEqual(self.lines([support.fresh(whole, *files), support.fresh(other, *files)]),
                         ["first unequal cycle: 21", "  A: end exit 0 retired 5 cycles 21",
                          "  B: end exit 1 retired 5 cycles 21"])
