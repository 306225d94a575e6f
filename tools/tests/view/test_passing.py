"""Loads that pass stores of unknown address, the model `off`, and the defences `hold` and `delay`: worked runs, random ones, and what is told of them."""
import random
import unittest
from collections import deque

import aliasing
import support
from programs import EXIT, PROGRAMS
from wadrelwy.riscv.encoding import add, lw, mul, sw
from wadrelwy.verdict.loaded import load
from wadrelwy.verdict.telling import Telling
from wadrelwy.view import Fault
from wadrelwy.view.description import read_description
from wadrelwy.view.listing import notes
from wadrelwy.view.reasons import DELAYED, DELAYED_OUTCOME, DEFENCE, HELD, HELD_BACK
from wadrelwy.view.stats import lines_of
from wadrelwy.view.trace import Trace
from wadrelwy.view.why import cycles

RUNS = 120
# a store whose address is made by a multiplication and a sum, and a load of the same word that passes it: violated, and then it waits
VIOLATED = [mul(5, 0, 0), add(5, 5, 2), sw(2, 0, 5), lw(6, 0, 2), *EXIT]
TRACE = """1 fet:00010000 fet:00010004
2 ren:0:00010000 ren:1:00010004 fet:00010008 fet:0001000c
3 mul:0 ren:2:00010008 ren:3:0001000c fet:00010010 fet:00010014
4 std:2 ld:3:0001fff0:m ren:4:00010010 fet:00010018
5 alu:4
6 done:0 done:4 ret:0 alu:1
7 done:1 ret:1 agu:2
8 done:2 clr:2 vio:3 dp:3:1 sq:4 ret:2 st:2:0001fff0:m fet:0001000c fet:00010010
9 ren:5:0001000c ren:6:00010010 fet:00010014 fet:00010018
10 ld:5:0001fff0:j alu:6
11 done:6
14 fill:0001fff0 done:5 ret:5 ret:6 ren:7:00010014
15 ret:7 call:7:0
end exit 0 retired 6 cycles 15
"""


def waits(item):
    return [(cycles(wait), wait.reason, None if wait.serial < 0 else wait.serial) for wait in item.waits]


def violated(*changes, model="spectre", depend=16):
    """The worked trace, with these texts in place of others."""
    text = TRACE
    for old, new in changes:
        assert text.count(old) == 1, old
        text = text.replace(old, new)
    files = support.image_of_words("violated", VIOLATED), support.description("violated", model, 2, depend=depend)
    return support.with_empty_rows(text), *files


class Violated(unittest.TestCase):
    def told(self, *changes, **keys):
        """What is unexplained, up to what can't be followed."""
        run, _ = support.fresh(*violated(*changes, **keys))
        try:
            deque(run.items(), maxlen=0)
        except Fault:
            self.assertTrue(run.reasons.unexplained)
        return run.reasons.unexplained

    def test_worked(self):
        """The load goes in 4, before the address is known in 8; there it is violated, and fetch goes on at it."""
        for model in ("spectre", "futuristic", "off"):
            run, entries, _ = support.replay(*violated(model=model))
            self.assertEqual(run.reasons.unexplained, [])
            self.assertEqual((entries[2].cleared, entries[3].squashed, entries[3].violated), (8, 8, True))
            self.assertEqual((entries[3].passed, entries[5].passed, run.pipeline.learnt), (True, False, {3: 8}))
            self.assertEqual(list(notes(entries[3])), ["miss 0001fff0", "passes stores of unknown address", "squashed 8, violated"])
            self.assertIn(("window empty after a violation", 0x0001000c), run.reasons.idle)

    def test_the_model_writes_it(self):
        lines, image, described = violated()
        self.assertEqual(support.modelled(described, image, 100), lines)

    def test_stats(self):
        run, disassembler = support.fresh(*violated())
        told = list(lines_of(support.taken(run, disassembler)))
        for name, value in [("stores cleared", "1"), ("loads that passed stores", "1, violated 1"), ("bits of dependence set", "1 of 16"),
                            ("held by taint", "0 instructions, 0 cycles; 0 never went on"), ("unexplained", "0")]:
            self.assertIn(f"{name:26}{value}", told)
        self.assertIn("       1  0001000c load x6, x2: passed stores 1 times; bit 3 is set in cycle 8; waited for an older store's address 0 times",
                      told)

    def test_without_bits(self):
        """The same load waits; what is told of passing isn't told; and the events of it are noticed."""
        image, description = support.image_of_words("violated", VIOLATED), support.description("without_bits", "spectre", 2)
        lines = support.modelled(description, image, 100)
        run, entries, _ = support.replay(lines, image, description)
        self.assertEqual((waits(entries[3]), run.reasons.unexplained), ([("4..7", "older store's address", 2)], []))
        run, disassembler = support.fresh(lines, image, description)
        self.assertNotIn("cleared", "\n".join(lines_of(support.taken(run, disassembler))))
        self.assertTrue(any("store" in text or "is cleared, where nothing may be" in text for text in self.told(depend=0)))

    def test_wrong_events(self):
        for changes, message in [
                ([("clr:2 vio:3 dp:3:1 sq:4 ", "")], "cycle 8: nothing is cleared, where entry 2 may be"),
                ([("agu:2\n", "agu:2 clr:2\n")], "cycle 7: entry 2 is cleared, where nothing may be"),
                ([("dp:3:1", "dp:2:1")], "cycle 8: load 3 is violated with dp:2:1, where dp:3:1 is right"),
                ([("vio:3", "vio:4")], "cycle 8: store 2 is cleared and load 4 is violated, where load 3 may be"),
                ([("sq:4", "sq:3")], "cycle 8: 3 entries and items are said to be dropped, 4 are"),
                ([("0001fff0:m fet:0001000c", "0001fff0:m fet:00010010")], "cycle 8: load 3 is violated, and fetch doesn't go on at 0001000c")]:
            with self.subTest(changes=changes):
                self.assertIn(message, self.told(*changes))


class Verdicts(unittest.TestCase):
    """With values it is known which load is violated."""

    def test_a_violation_that_is_not_told(self):
        lines, image, description = violated((" vio:3 dp:3:1 sq:4", ""), (" fet:0001000c fet:00010010\n9", " fet:00010018 fet:0001001c\n9"))
        machine = read_description(description)
        try:
            found = Telling(Trace(iter(lines)), load(image, machine), machine, []).reasons.unexplained
        except Fault as fault:
            found = [str(fault)]
        self.assertTrue(found)


class Unprotected(unittest.TestCase):
    def test_what_an_attack_shows(self):
        """The bounds check with two secrets parts in 15, where the last load accesses the secret's line."""
        images = support.example("bounds_check.elf"), support.example("bounds_check_other.elf")
        described = support.description("unprotected", "off", 2)
        traces = [support.modelled(described, image, 100) for image in images]
        self.assertEqual(next(number for number, (a, b) in enumerate(zip(*traces), 1) if a != b), 15)
        run, entries, _ = support.replay(traces[0], images[0], described)
        self.assertEqual((entries[6].issued, entries[6].lines, run.reasons.unexplained), (15, ((0x0001f900, "m"),), []))


class Held(unittest.TestCase):
    def lines(self):
        """The bounds check, with what is held back left out."""
        lines = support.worked_trace("Bounds check bypass")
        lines[12:15] = ["13 fill:0001fff0 done:0 done:3 ret:0 mul:1\n", "14\n", "15\n"]
        return lines

    def test_worked(self):
        """The shift waits for the secret's load until it is dropped, though its value is there in 13."""
        lines, files = self.lines(), (support.example("bounds_check.elf"), support.description("held", "spectre", 2, defence='"hold"'))
        self.assertEqual(support.modelled(files[1], files[0], 100), lines)
        run, entries, _ = support.replay(lines, *files)
        self.assertEqual(run.reasons.unexplained, [])
        self.assertEqual(waits(entries[4]), [("5..12", "operand", 3), ("13..16", HELD_BACK, 3)])
        self.assertEqual(waits(entries[5]), [("5..16", "operand", 4)])
        run, disassembler = support.fresh(lines, *files)
        self.assertIn(f"{'held back':26}1 instructions, 4 cycles; 1 never went on", list(lines_of(support.taken(run, disassembler))))
        stt = support.description("not_held", "spectre", 2)
        self.assertEqual(support.replay(lines, files[0], stt)[0].reasons.unexplained[0], "cycle 13: entry 4 waits, and nothing tells why")

    def test_what_it_tells_of_the_secret(self):
        """What would show the secret is the last load, once shift and sum were there."""
        lines = self.lines()
        machine = read_description(support.description("held", "spectre", 2, defence='"hold"'))
        found = Telling(Trace(iter(lines)), load(support.example("bounds_check.elf"), machine), machine, [0x0001fff8])
        self.assertEqual([(key, held.cycles) for key, held in found.held.items()], [((0x00010018, "access"), 4)])


class Delayed(unittest.TestCase):
    """The bounds check: not even the load of the secret goes, and so nothing behind it does."""

    def setUp(self):
        self.files = support.example("bounds_check.elf"), support.description("delayed", "spectre", 2, defence='"delay"')
        self.lines = support.worked_trace("Bounds check bypass")
        self.lines[3] = self.lines[3].replace("ld:3:0001fff0:j ", "")
        self.lines[12:15] = ["13 fill:0001fff0 done:0 ret:0 mul:1\n", "14\n", "15\n"]

    def test_worked(self):
        self.assertEqual(support.modelled(self.files[1], self.files[0], 100), self.lines)
        run, entries, _ = support.replay(self.lines, *self.files)
        self.assertEqual(run.reasons.unexplained, [])
        self.assertEqual(waits(entries[3]), [("4..16", DELAYED, 2)])
        self.assertEqual(waits(entries[4]), [("5..16", "operand", 3)])
        run, disassembler = support.fresh(self.lines, *self.files)
        self.assertIn(f"{'delayed':26}1 instructions, 13 cycles; 1 never went on", list(lines_of(support.taken(run, disassembler))))
        stt = support.description("not_delayed", "spectre", 2)
        self.assertEqual(support.replay(self.lines, self.files[0], stt)[0].reasons.unexplained[0], "cycle 4: entry 3 waits, and nothing tells why")

    def test_what_it_tells_of_the_secret(self):
        """What would show the secret begins with its load."""
        machine = read_description(self.files[1])
        found = Telling(Trace(iter(self.lines)), load(self.files[0], machine), machine, [0x0001fff8])
        self.assertEqual([(key, held.cycles) for key, held in found.held.items()], [((0x0001000c, "load of these bytes"), 13)])

    def test_what_goes_too_early_or_waits_for_nothing(self):
        """A trace under `stt` isn't one under `delay`: told is each thing that goes before it is visible, and what waits for another reason."""
        for name, under, told in (("delayed_under_spectre", "stt", "waits, and nothing tells why"), ("off_delays_nothing", "delay", "has to wait: not visible")):
            lines, image, _ = support.stored(name)
            described = support.description(f"as_{under}", "spectre", 2, defence=f'"{under}"')
            self.assertIn(told, "\n".join(support.replay(lines, image, described)[0].reasons.unexplained))


class Random(unittest.TestCase):
    def test_nothing_is_unexplained(self):
        """Over what the model of tools/evaluate writes, from the text alone and with values; and each key has its effect."""
        draw, met = random.Random(1), set()
        for number in range(RUNS):
            image, described = aliasing.image(draw, "aliasing"), aliasing.description(draw, "aliasing")
            lines, machine = support.modelled(described, image, 3000), read_description(described)
            run, _, items = support.replay(lines, image, described)
            every = range(machine.base, machine.base + machine.size)
            told = Telling(Trace(iter(lines)), load(image, machine), machine, every).reasons.unexplained
            with self.subTest(number=number):
                self.assertEqual((run.reasons.unexplained, told), ([], []))
            reasons = {wait.reason for item in items for wait in item.waits}
            if machine.model == "off":
                self.assertEqual(reasons & DEFENCE, set())
            theirs = {"stt": set(HELD), "hold": {*HELD, HELD_BACK}, "delay": {DELAYED, DELAYED_OUTCOME}}
            self.assertLessEqual(reasons & DEFENCE, theirs[machine.defence])
            met |= reasons | {"violated" for item in items if item.violated}
        self.assertLessEqual({"violated", *DEFENCE}, met)

    def test_small_programs(self):
        for name, words in PROGRAMS.items():
            image = support.image_of_words(name, words)
            for keys in support.defended(depend=2):
                for described in support.descriptions(2, ("spectre", "futuristic", "off"), **keys):
                    with self.subTest(name=name, description=described):
                        self.assertEqual(support.replay(support.modelled(described, image, 3000), image, described)[0].reasons.unexplained, [])


@unittest.skipIf(support.NO_PROGRAM, support.NO_PROGRAM)
class OverTheProgram(unittest.TestCase):
    def test_it_writes_what_the_model_does(self):
        draw = random.Random(2)
        for number in range(RUNS):
            image, described = aliasing.image(draw, "aliasing"), aliasing.description(draw, "aliasing")
            with self.subTest(number=number):
                self.assertEqual(support.trace_of(described, image, 3000), support.modelled(described, image, 3000))

    def test_nothing_is_unexplained_over_the_examples(self):
        for name in support.EXAMPLES:
            image = support.example(name + ".elf")
            for keys in support.defended(depend=16):
                for described in support.descriptions(2, ("spectre", "futuristic", "off"), **keys):
                    with self.subTest(name=name, description=described):
                        self.assertEqual(support.replay(support.trace_of(described, image, 3000), image, described)[0].reasons.unexplained, [])


if __name__ == "__main__":
    unittest.main()
