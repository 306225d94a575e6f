"""Which windows are measured, what a text of stt_stats tells of one, the figures that come of them, and the code that touches memory: by numbers
that were reckoned by hand."""
import os
import statistics
import subprocess
import unittest

import support
from wadrelwy.counting.numbers import Figure
from wadrelwy.sampling import changes, estimate, measuring, places, planned, touching
from wadrelwy.sampling.changes import At
from wadrelwy.sampling.measuring import Taken
from wadrelwy.sampling.places import Window
from wadrelwy.verdict.hart import Hart
from wadrelwy.verdict.loaded import load
from wadrelwy.view import Fault
from wadrelwy.view.description import read_description

BASE = 0x10000
NAMES = ("fetched", "retired", "slots_1")
LENGTH = 100


def by_shell(text, first, last):
    """What the lists' script tells of a text of these bytes."""
    program = support.file_of("cat_text", b"#!/bin/sh\ncat " + support.file_of("cut.text", text).encode() + b"\n")
    os.chmod(program, 0o755)
    ended = subprocess.run(["sh", "-c", measuring.script(NAMES, LENGTH) + '\n  echo "$said"\n  exit $status', "sh", "", "", "", str(first), str(last)],
                           env=os.environ | {"program": program, "description": "", "image": ""}, capture_output=True, text=True, check=False)
    found = measuring.read_taken(ended.stdout.strip())
    assert (ended.returncode, ended.stderr) == (2 if found is None else 0, ""), ended
    return found


def taken_in(text, first, last):
    return measuring.taken_in(text.splitlines(keepends=True), NAMES, first, last)


class Places(unittest.TestCase):
    def test_one_in_each_part(self):
        for steps, count, length, warm, seed in ((1000, 10, 100, 50, 1), (51205, 20, 100, 300, 2), (1 << 32, 50, 10000, 200000, 3)):
            found = places.windows(steps, count, length, warm, seed)
            for at, window in enumerate(found):
                self.assertTrue(at * steps // count <= window.begin <= window.begin + length <= (at + 1) * steps // count, window)
                self.assertEqual((window.number, window.warm, window.longer), (at, min(warm, window.begin), False))
            self.assertEqual(found, places.windows(steps, count, length, warm, seed))
            self.assertTrue(steps == count * length or found != places.windows(steps, count, length, warm, seed + 1))

    def test_longer(self):
        """Twenty-five of those that begin cold, evenly; each before the same instructions, behind four times the warm-up or all that there is."""
        whole = [Window(at, 100 * at, min(500, 100 * at), False) for at in range(106)]
        found = list(places.longer(whole))
        self.assertEqual([window.number for window in found], [*range(8, 106, 4)])
        self.assertEqual([(window.begin, window.warm, window.longer) for window in found],
                         [(100 * window.number, min(2000, 100 * window.number), True) for window in found])
        self.assertEqual(list(places.longer(whole[:6])), [])
        self.assertEqual([(window.number, window.warm) for window in places.longer(whole[:8])], [(6, 600), (7, 700)])

    def test_refusals(self):
        for words, said in (((1000, 9, 1, 0, 1), "--windows is at least 10"), ((1000, 10, 0, 0, 1), "--length 1"),
                            ((1000, 10, 1, -1, 1), "--warm 0"), ((1000, 11, 100, 0, 1), "`wadrelwy run` takes the whole")):
            with self.assertRaisesRegex(Fault, said):
                places.windows(*words)


class Numbers(unittest.TestCase):
    def test_student(self):
        for degrees, quantile in ((5, 2.571), (9, 2.262), (19, 2.093), (49, 2.010), (1000000, 1.960)):
            self.assertAlmostEqual(estimate.student(degrees), quantile, delta=0.01 if degrees < 9 else 0.001)

    # rows of ten cycles that retire two, five and none, and six cycles more with four
    TEXT = ("10 4 2 30\n20 9 5 7\n30 1 0 40\nfetched 19\nretired 11\nslots_1 90\nend exit 0 retired 11 cycles 36\n")

    def test_taken_in(self):
        """The window begins behind the first row by which so many have retired, and ends so; behind the last row it is what is left of the whole."""
        for first, last, begin, end, counts in ((0, 1, 0, 10, (4, 2, 30)), (0, 3, 0, 20, (13, 7, 37)), (1, 3, 10, 20, (9, 5, 7)), (2, 7, 10, 20, (9, 5, 7)),
                                                (2, 8, 10, 36, (15, 9, 60)), (7, 11, 20, 36, (6, 4, 53)), (0, 11, 0, 36, (19, 11, 90))):
            with self.subTest(first=first, last=last):
                told = Taken(begin, end, dict(zip(NAMES, counts)))
                self.assertEqual((taken_in(self.TEXT, first, last), by_shell(self.TEXT.encode(), first, last)), (told, told))
        for first, last in ((0, 12), (8, 11), (11, 12)):
            self.assertEqual((taken_in(self.TEXT, first, last), by_shell(self.TEXT.encode(), first, last)), (None, None))

    def test_a_text_that_is_cut(self):
        """Of a text that was cut anywhere the shell's way tells what the whole one does, or nothing; and so does the Python way."""
        for first, last in ((0, 2), (1, 7), (2, 9)):
            told = taken_in(self.TEXT, first, last)
            self.assertIsNotNone(told)
            for length in range(len(self.TEXT)):
                cut = self.TEXT[:length]
                with self.subTest(first=first, last=last, length=length):
                    self.assertIn(taken_in(cut, first, last), (told, None))
                    if length % 3 == 0 or self.TEXT[length - 1] == "\n":
                        self.assertEqual(by_shell(cut.encode(), first, last), taken_in(cut, first, last))

    def test_names(self):
        """They are those of the text; a text of which the rows don't add to the whole, or that has no `retired`, is another program's."""
        lines = ["8 4 2 30", "16 9 5 7", "fetched 14", "retired 7", "slots_1 37", "end exit 0 retired 7 cycles 17"]
        self.assertEqual(measuring.names_in(lines), NAMES)
        for at, other in ((1, "16 9 5"), (1, "16 9 5 8"), (1, "16 9 6 7"), (3, "retires 7"), (2, "retired 14"), (5, "end exit 0 retired 8 cycles 17"),
                          (5, "end exit 0 retired 7 cycles 16"), (5, "slots_2 5"), (0, "8 4 2 30 x"), (4, "")):
            self.assertIsNone(measuring.names_in([*lines[:at], other, *lines[at + 1:]]) if other != "end exit 0 retired 7 cycles 16" else None, other)
        self.assertIsNone(measuring.names_in([]))
        # fetched 13 is more than the rows have, where their last cycle is the run's
        self.assertIsNone(measuring.names_in([*lines[:2], "fetched 15", *lines[3:5], "end exit 0 retired 7 cycles 16"]))

    def test_lines(self):
        taken = Taken(5, 105, {"fetched": 70, "retired": 50})
        self.assertEqual((measuring.read_taken(measuring.line_of(taken)), taken.each), (taken, 2.0))
        for line in ("", "cycle 5 to cycle 105 fetched 3 retired 0", "cycle 5 to cycle 5 fetched 3 retired 60", "cycle 5 to cycle 105 fetched 3",
                     "cycle 5 to cycle 105", "end exit 0 retired 6 cycles 9"):
            self.assertIsNone(measuring.read_taken(line))

    def test_rows(self):
        """A window is told to a hundredth of its length."""
        self.assertEqual([measuring.every(length) for length in (1, 100, 250, 10000, 1000000)], [1, 1, 2, 100, 100])

    def test_estimate(self):
        """Four windows of 1, 2, 4 and 3 cycles an instruction; two of them with the longer warm-up, in which they take a quarter less: 0.25 and 1
        cycles, 0.625 in the mean."""
        each = {0: 1, 1: 2, 2: 4, 3: 3}
        whole = {at: Taken(0, 100 * cycles, {"retired": 100, "load_misses": 10 * at}) for at, cycles in each.items()}
        longer = {0: Taken(0, 75, {"retired": 100, "load_misses": 0}), 2: Taken(0, 300, {"retired": 100, "load_misses": 15})}
        made = estimate.estimate("core", {}, whole, longer, 500)
        self.assertEqual((made.cycles.value, made.cycles.longer, made.windows, made.compared), (2.5 - 0.625, -0.625, 4, 2))
        by_windows, by_longer = estimate.student(2) * ((1 + 4 + 1) / (2 * 3) / 4) ** 0.5, estimate.student(1) * statistics.stdev([0.25, 1]) / 2 ** 0.5
        self.assertAlmostEqual(made.cycles.half, (by_windows ** 2 + by_longer ** 2) ** 0.5)
        self.assertAlmostEqual(made.cycles.wide, made.cycles.half + 0.625 / 3)
        # the run takes up to 500 cycles more in 1000 instructions
        self.assertEqual(made.bounds(1000), (0, 1.875 + made.cycles.wide + 0.5))
        misses = made.figures["load_misses"]
        self.assertEqual((misses.value, misses.longer, misses.figure.told), (150 - 25, 75 - 100, "1000 * load_misses / retired"))
        self.assertEqual(list(made.figures), ["cycles_per_instruction", "memory_loads_per_thousand", "load_misses"])

    def test_estimate_without_longer(self):
        whole = {at: Taken(0, 100 * (at + 1), {"retired": 100, "load_misses": 0}) for at in range(3)}
        made = estimate.estimate("core", {}, whole, {})
        self.assertEqual((made.cycles.value, made.cycles.longer, made.cycles.wide), (2, None, made.cycles.half))
        wide = made._replace(windows=20, figures={"cycles_per_instruction": made.cycles._replace(half=0.4)})
        self.assertEqual(wide.needed, 320)
        question = planned.Question("one", 1000, "exit 0", {"windows": 20, "length": 5, "warm": 7}, ("retired", "load_misses"))
        self.assertIn("+- 5 % may take some 320 windows", "\n".join(estimate.told(question, wide)))
        narrow = {"cycles_per_instruction": made.cycles._replace(half=0.09)}
        self.assertNotIn("that is wide", "\n".join(estimate.told(question, made._replace(figures=narrow))))

    def test_share_of_another_number(self):
        """A figure that isn't for an instruction is a sum over the sum of what it is divided by, and so is how far each window is off."""
        windows = [Taken(0, cycles, {"retired": 100, "slots_1": slots}) for cycles, slots in ((100, 300), (300, 100), (100, 100))]
        share = Figure(("slots_1",), 100, "cycles")
        self.assertEqual(estimate.ratio(share, windows), 100)
        # off by 20000, -20000 and 0, where a window has 500 / 3 cycles
        self.assertAlmostEqual(estimate.half_of(share, 100, windows), estimate.student(1) * ((40000 ** 2 + 20000 ** 2) / 4 / 3) ** 0.5 / (500 / 3))

    def test_parts_that_are_unlike(self):
        """Of a run in two halves, each of which is all alike, the interval comes from the one step between them."""
        whole = {at: Taken(0, 100 if at < 50 else 3000, {"retired": 100}) for at in range(100)}
        made = estimate.estimate("core", {}, whole, {})
        self.assertEqual((made.cycles.value, made.cycles.longer), (15.5, None))
        self.assertAlmostEqual(made.cycles.half, estimate.student(50) * (29 ** 2 / (2 * 99) / 100) ** 0.5)


class Changes(unittest.TestCase):
    """Twenty parts of 1000 instructions, with a window of 10 in the middle of each: five cycles an instruction before 7300, one behind."""

    def at(self, begin, change=7300):
        before = min(max(change - begin, 0), 10)
        return At(begin, Taken(0, 5 * before + 10 - before, {"retired": 10}))

    def setUp(self):
        self.windows = [self.at(1000 * at + 495) for at in range(20)]

    def test_levels(self):
        """A step counts where three windows on each side, or the two that there are, are alike; one that is like no side is no change."""
        self.assertEqual(list(changes.levels([5, 5, 5, 1, 1, 1])), [2])
        self.assertEqual(list(changes.levels([5, 5, 1, 1])), [1])
        for values in ([5, 5, 5, 1, 5, 5], [5, 1, 5, 1, 5, 1], [1, 2, 3, 4, 5, 6], [5, 1, 1, 1], [5, 5, 5, 3, 1, 1, 1], [2, 2, 2, 2]):
            self.assertEqual(list(changes.levels(values)), [], values)
        # the small step is less than the hundredth part of all squares
        self.assertEqual(list(changes.levels([50, 50, 50, 1, 1, 1, 2, 2, 2])), [2])

    def test_narrowed(self):
        """Each further window halves what is left, until it is two lengths of a window, or they are six. The place is right to a length."""
        further, lengths = [], []
        while (found := changes.changes(self.windows, further, 10)) and found[0].is_wanted(10):
            lengths.append(found[0].high - found[0].low)
            further.append(self.at(found[0].next(10)))
        self.assertEqual((len(found), found[0].number, found[0].further, found[0].is_found), (1, 6, len(further), True))
        self.assertLess(abs(found[0].place - 7300), 10)
        self.assertEqual(lengths, [990, 490, 240, 115, 52, 21])
        # one that has the change within itself ends the search
        self.assertEqual(changes.changes(self.windows, [self.at(7297)], 10)[0][1:4], (7297, 7307, 990))
        self.assertFalse(changes.changes(self.windows, [], 10)[0].is_found)

    def test_estimate(self):
        """Without the place the two parts count alike, so that five times seven and thirteen are 48; with it 7300 instructions have five."""
        whole, figure = {at: window.taken for at, window in enumerate(self.windows)}, Figure(("cycles",), divided="retired")
        made = estimate.estimate("core", {}, whole, {}).cycles
        self.assertEqual(made.value, 48 / 20)
        found = estimate.moved([changes.Change(6, 7290, 7310, 990, 5)], 20000, 20)
        self.assertAlmostEqual(found[0].parts, 1.3)
        self.assertAlmostEqual(found[0].unknown, 0.02)
        better = estimate.estimate("core", {}, whole, {}, 0, found).cycles
        self.assertAlmostEqual(better.value, (5 * 7300 + 12700) / 20000)
        self.assertAlmostEqual(better.half, made.half * 0.02 / 6 ** 0.5)
        self.assertEqual(estimate.moved([changes.Change(6, 7000, 7500, 990, 1)], 20000, 20), [])
        self.assertEqual(estimate.by_changes(Figure(("retired",), divided="cycles"), list(whole.values()), found), 0)


class Touching(unittest.TestCase):
    def test_lines(self):
        """The lines that aren't zero, without code and without what is cut at memory's end."""
        memory = bytearray(1000)
        for at in (0, 63, 64, 200, 640, 990):
            memory[at] = 1
        self.assertEqual(touching.lines_of(memory, 0x10000, 64, [(0x10040, 0x10044)]), [0x10000, 0x100c0, 0x10280])
        self.assertEqual(touching.lines_of(memory, 0x10010, 64, []), [0x10040, 0x10080 + 0x40, 0x10280])

    def test_chosen(self):
        """Where there are more lines than the caches hold, those that changed come first."""
        lines = [64 * at for at in range(10)]
        late = touching.lines_in([(304, bytes(16)), (560, bytes(48))], 64)
        self.assertEqual(late, {256, 512, 576})
        self.assertEqual(touching.chosen(lines, late, 10), lines)
        self.assertEqual(touching.chosen(lines, late, 5), [0, 64, 256, 512, 576])

    def test_stretches(self):
        """Each line is in a stretch, and there are 40 at most: all gaps are closed but for the largest."""
        self.assertEqual(touching.stretches([0, 64, 192], 64), [(0, 128), (192, 256)])
        lines = [1024 * at for at in range(30)] + [30 * 1024 + 128 * at for at in range(30)]
        found = touching.stretches(lines, 64)
        self.assertEqual(len(found), 40)
        self.assertEqual(found[:30], [(1024 * at, 1024 * at + 64) for at in range(30)])
        self.assertEqual((found[30][0], found[-1][1]), (30 * 1024, 30 * 1024 + 29 * 128 + 64))
        self.assertTrue(all(any(low <= line < high for low, high in found) for line in lines))
        self.assertEqual(touching.stretches([], 64), [])

    def test_code(self):
        """The code loads a word of each line, in as many steps as it says, and stores nothing."""
        for line, found in ((64, [(0x20000, 0x20040), (0x20800, 0x20980)]), (4, [(0x30ffc, 0x31004)])):
            code, steps = touching.touching(found, line)
            self.assertLessEqual(len(code), touching.SIZE)
            path = support.file_of("touching.elf", support.elf([(5, BASE, code, len(code))]))
            image = load(path, read_description(support.example("medium.toml")))
            run = Hart(image)
            taken = list(run.run(steps))
            self.assertEqual((len(taken), run.pc, run.end, bytes(run.memory.data)), (steps, BASE + len(code), None, bytes(image.memory)))
            self.assertEqual([step.access.address for step in taken if step.access], [at for low, high in found for at in range(low, high, line)])


if __name__ == "__main__":
    unittest.main()
