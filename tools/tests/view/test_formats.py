"""What the subcommands write of the worked bounds check (docs/traces.md): a run of 21 cycles in which 13
items are fetched, 7 of them are dropped in cycle 17, and 5 instructions retire."""
import re
import unittest
from collections import Counter

import support
from wadrelwy import Fault
from wadrelwy.view import konata, listing, o3, stats, why

SHADOW = "Fault shadow"


def lines(module, *more):
    run, disassembler = support.fresh_bounds_check()
    return list(module.lines_of(run, disassembler, *more))


class Statistics(unittest.TestCase):
    def setUp(self):
        self.text = "\n".join(stats.lines_of(support.taken(*support.fresh_bounds_check())))

    def has(self, *expected):
        for line in expected:
            self.assertRegex(self.text, r"(?m)^ *" + line + r"$")

    def test_counts_of_the_bounds_check(self):
        self.has("end  +end exit 0 retired 5 cycles 21", "cycles  +21", "retired  +5", "instructions a cycle  +0.238",
                 "fetched  +13", "renamed  +10", "squashed  +7", "resolved: branches  +1, mispredicted 1",
                 "resolved: JALRs  +0, mispredicted 0", "loads: hit  +0", "loads: miss  +1",
                 "loads: join a miss  +1, not retired 1",
                 "simple, branches, jumps  +5, not retired 3", "multiplications  +1", "lines filled  +1, dropped for them 0",
                 "held by taint  +1 instructions, 2 cycles; 1 never went on", "unexplained  +0")

    def test_cycles_without_retirement(self):
        """Retirement is in 13, 16, 17, 20 and 21. Up to 2 nothing is in flight, the load executes from 4 to 12, and so on."""
        self.has("nothing retired in 16 of 21 cycles", "9  oldest executes: load miss", "2  window empty", "2  oldest executes: multiplication",
                 "1  window empty after a misprediction", "2  oldest begins to execute")


class Reasons(unittest.TestCase):
    def test_each_wait_has_its_line(self):
        text = lines(why, 1, None, False)
        self.assertIn("       15..16  6 00010018 load x7, x6 <_start+0x18>: taint of 3 0001000c load x6, x2 <_start+0xc>", text)
        self.assertIn("        6..16  rename stops short of 00010020 call <_start+0x20>: call waits to be alone", text)
        self.assertEqual(text[-1], "unexplained: 0")

    def test_a_span_of_cycles(self):
        spans = [re.match(r" +(\d+)(?:\.\.(\d+))?  ", line) for line in lines(why, 13, 14, False)]
        spans = [(int(span[1]), int(span[2] or span[1])) for span in spans if span]
        self.assertTrue(spans and all(first <= 14 and last >= 13 for first, last in spans), spans)

    def test_the_sums_alone(self):
        text = lines(why, 1, None, True)
        self.assertEqual((text[-1], [line for line in text if line.startswith(" ")]), ("unexplained: 0", []))

    def test_one_function(self):
        """All of it is of _start; nothing of main was fetched, which is refused."""
        whole, part = lines(why, 1, None, False), lines(why, 1, None, False, "_start")
        self.assertEqual(part, [line for line in whole if "(no code)" not in line])
        with self.assertRaisesRegex(Fault, "no instruction of <main> was fetched; the image has no such symbol"):
            lines(why, 1, None, False, "main")


class List(unittest.TestCase):
    def test_one_function(self):
        self.assertEqual(len(lines(listing, 1, None, "_start")), 1 + 11)
        with self.assertRaisesRegex(Fault, "no instruction of <main> was fetched; the image has no such symbol"):
            lines(listing, 1, None, "main")

    def test_one_line_an_instruction(self):
        text = lines(listing, 1, None)
        self.assertEqual(len(text), 1 + 13)
        self.assertEqual(text[3].split()[:8], ["2", "2", "3", "16", "16", "17", "17", "17"])
        self.assertTrue(text[3].endswith("branch x0, x5 <_start+0x8>; taken, mispredicted"), text[3])
        self.assertTrue(text[7].endswith("<_start+0x18>; held by taint 15..16 of load 3; squashed 17"), text[7])

    def test_a_span_of_cycles(self):
        self.assertEqual([line.split()[0] for line in lines(listing, 18, 19)[1:]], ["8", "9", "-"])


class Konata(unittest.TestCase):
    def setUp(self):
        self.lines = [line.split("\t") for line in lines(konata, 1, None)]

    def test_header_and_cycles(self):
        self.assertEqual(self.lines[:2], [["Kanata", "0004"], ["C=", "1"]])
        self.assertTrue(all(int(line[1]) > 0 for line in self.lines if line[0] == "C"))

    def test_each_instruction_begins_once_and_ends_once(self):
        begun = [line[1] for line in self.lines if line[0] == "I"]
        ended = [line[1] for line in self.lines if line[0] == "R"]
        self.assertEqual(begun, [str(number) for number in range(13)])
        self.assertEqual(sorted(ended), sorted(begun))
        self.assertEqual(Counter(line[3] for line in self.lines if line[0] == "R"), {"0": 5, "1": 8})

    def test_each_stage_begins_and_then_ends(self):
        open_stage, alive = {}, set()
        for word, *rest in self.lines:
            if word == "I":
                alive.add(rest[0])
            elif word in ("S", "E", "R", "W", "L"):
                self.assertIn(rest[0], alive)
            if word == "S":
                self.assertNotIn(rest[0], open_stage)
                open_stage[rest[0]] = rest[2]
            elif word == "E":
                self.assertEqual(open_stage.pop(rest[0]), rest[2])
            elif word == "R":
                self.assertNotIn(rest[0], open_stage)
                alive.remove(rest[0])
        self.assertEqual((open_stage, alive), ({}, set()))

    def test_the_load_that_is_held(self):
        stages = [line[3] for line in self.lines if line[0] == "S" and line[1] == "6"]
        self.assertEqual(stages, ["F", "Rn", "Wo", "Wt"])

    def test_dependences(self):
        self.assertIn(["W", "1", "0", "0"], self.lines)
        self.assertIn(["W", "4", "3", "0"], self.lines)

    def test_a_span_of_cycles(self):
        found = [line.split("\t") for line in lines(konata, 18, 19)]
        self.assertEqual([line[1] for line in found if line[0] == "I"], ["0", "1", "2"])
        self.assertEqual(len([line for line in found if line[0] == "R"]), 3)


class O3(unittest.TestCase):
    STAGES = ["fetch", "decode", "rename", "dispatch", "issue", "complete", "retire"]

    def setUp(self):
        self.lines = [line.split(":") for line in lines(o3, 1, None)]

    def test_seven_lines_an_instruction(self):
        self.assertEqual([line[:2] for line in self.lines], [["O3PipeView", stage] for stage in self.STAGES] * 13)
        self.assertTrue(all(len(line) == {"fetch": 7, "retire": 5}.get(line[1], 3) for line in self.lines))
        self.assertEqual([line[5] for line in self.lines if line[1] == "fetch"], [str(number) for number in range(1, 14)])

    def test_ticks_of_the_first_load(self):
        self.assertEqual([line[2] for line in self.lines[:7]], ["1000", "2000", "2000", "2000", "3000", "13000", "13000"])

    def test_what_is_squashed_does_not_retire(self):
        self.assertEqual([line[2] for line in self.lines if line[1] == "retire"],
                         ["13000", "16000", "17000"] + ["0"] * 7 + ["20000", "21000", "0"])

    def test_ticks_rise(self):
        for first in range(0, len(self.lines), 7):
            ticks = [int(line[2]) for line in self.lines[first:first + 7] if int(line[2])]
            self.assertEqual(ticks, sorted(ticks))
