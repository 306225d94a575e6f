"""The CPI stack, the numbers of a part of a run, the comparison of two runs and the annotated functions."""
import glob
import json
import os
import unittest
from xml.etree import ElementTree

import support
from programs import EXIT, KEPT, PROGRAMS, lbu, sharing
from wadrelwy.riscv.encoding import add, blt, div, lw, mul
from wadrelwy.view import Fault, annotate, compare, numbers, slots, stack, stats
from wadrelwy.view.description import read_description
from wadrelwy.view.replay import Replay
from wadrelwy.view.trace import Trace

# the worked bounds check: 21 cycles of two slots, by the text beside it in docs/machine.md
BOUNDS_CHECK = {
    "base": 5,                # 5 instructions retire
    "front end": 6,           # cycles 1 to 3, before the first entry executes
    "load: memory": 18,       # 4 to 12, the first load is the oldest
    "multiplier": 5,          # one slot of 13, both of 14 and 15
    "simple operation": 1,    # one of 16, in which the branch issues
    "misprediction": 5,       # one of 17, both of 18 and 19
    "system call": 1,         # one of 20: the call waits to be alone
    "end of the run": 1,      # one of 21
}


def run_of(lines, image, description, **more):
    return support.taken(*support.fresh(lines, image, description), **more)


def bounds_check(**more):
    return support.taken(*support.fresh_bounds_check(), **more)


class Stack(unittest.TestCase):
    def check(self, run):
        """Its sums are cycles times width, and nothing is unexplained."""
        sums, width = run.slots.sums(), run.pipeline.description.retire_width
        self.assertEqual((sum(sums.values()), sums.get(slots.UNEXPLAINED, 0), run.reasons.unexplained), (run.pipeline.cycle * width, 0, []))

    def taken(self, lines, image, description):
        run = Replay(Trace(iter(lines)), support.Image(image), read_description(description))
        for _ in run.items():
            pass
        self.check(run)
        return run

    def test_the_bounds_check(self):
        self.assertEqual(bounds_check().slots.sums(), BOUNDS_CHECK)

    def defended(self, name, words, model, keys=None, **core):
        """A program's run under the example core in version 2, and the slots that the defence has."""
        image, keys = support.image_of_words(name, words), keys or {}
        described = support.description("_".join([name, *keys]), model, 2, **core, **keys)
        run = self.taken(support.modelled(described, image, 200), image, described)
        return run, {reason: number for reason, number in run.slots.sums().items() if reason in {*slots.KEPT.values(), *slots.SETTLING.values()}}

    def test_what_the_defence_takes(self):
        """The loads miss in 3 and 4, so their lines come in 13 and 14; the branch needs the product of the first, and is resolved in 17. The
        division could issue in 14: once 14, 15 and 16 are over, each of which loses a slot, it is the oldest that waits with all that it reads and
        isn't visible, and is kept. It divides 0x1fff0, of 17 digits, in 20 cycles from 17 on,
        and is the oldest from 18 on. Three cycles sooner it would be done in 34, so both slots of 34, 35 and 36 are the defence's."""
        words, cycles = [lw(5, 0, 2), mul(5, 5, 5), blt(0, 5, 8), lw(6, -16, 2), div(7, 2, 6), *EXIT], {}
        for model, keys, told in (("off", {}, {}), ("spectre", {}, {"taint: before it issues": 6}), ("futuristic", {}, {"taint: before it issues": 6}),
                                  ("spectre", {"defence": '"hold"'}, {"held back": 6})):
            run, found = self.defended("held", words, model, keys)
            self.assertEqual((found, run.slots.sums()["divider"]), (told, 32), (model, keys))
            cycles[model, bool(keys)] = run.pipeline.cycle
        self.assertEqual({number - cycles["off", False] for number in cycles.values()}, {0, 3})

    def test_two_that_are_kept(self):
        """The address that the load has is there in 14, and so is the divisor: both are kept in 14, 15 and 16, which count for the load, the older
        one. It issues in 17 and hits, so it would be done in 19; one slot of 18 is the defence's. The division is the oldest from 19 on, and executes
        until 37: that it could have been done in 34 isn't told. So six slots are lost, and one of them is told."""
        words = [lw(5, 0, 2), mul(5, 5, 5), blt(0, 5, 8), lbu(6, 8, 2), add(6, 6, 2), lw(7, 4, 6), div(28, 2, 6), *EXIT]
        (without, none), (run, found) = self.defended("two", words, "off"), self.defended("two", words, "spectre")
        self.assertEqual((none, found, run.pipeline.cycle - without.pipeline.cycle), ({}, {"taint: before it issues": 1}, 3))
        self.assertEqual((without.slots.sums()["divider"], run.slots.sums()["divider"]), (30, 35))

    def test_behind_a_branch_that_is_held(self):
        """The second branch is wrongly predicted, and done in 16. Without protection it is resolved then, and what is fetched in 16 is there
        before the first branch retires: nothing is lost for it. It flows from a load behind the first branch, so under `spectre` it is resolved
        in 20, behind that. What comes behind it comes late for the misprediction: one slot of 20, both of 21 and 22; none is the defence's.
        Under `delay` the load isn't visible until the first branch is resolved, in 19. It could have issued in 5, so each of 5 to 18
        counts for it, and it executes until 21: one slot of 19 and both of 20 are the defence's."""
        words = PROGRAMS["branch on a loaded value"]
        for model, keys, told in (("off", {}, (0, {})), ("spectre", {}, (5, {})),
                                  ("spectre", {"defence": '"delay"'}, (5, {"delayed: before it issues": 3}))):
            run, found = self.defended("branch", words, model, keys)
            self.assertEqual((run.slots.sums().get("misprediction", 0), found), told, (model, keys))

    def test_an_older_one_that_is_let(self):
        """The loads miss in 3 and 4, the branch is resolved in 17, and the division could issue in 14 and does in 17, until 37. The load in front of
        it hits, or joins the first miss, once the address of the store is known. Where it is from the start, that load issues in 7, so 14, 15
        and 16 count for the division: it would be done in 34, and both slots of 34, 35 and 36 are the defence's. Where the product is in the address,
        that comes in 17. Then the load is the oldest that waits with all that it reads and isn't visible, and no defence keeps it: none
        of the three cycles counts, and none is told, though the run takes three more either way."""
        for name, told, divider in (("behind a known store", {"taint: before it issues": 6}, 29), ("behind a late store", {}, 33)):
            (without, none), (run, found) = self.defended(name, KEPT[name], "off"), self.defended(name, KEPT[name], "spectre")
            self.assertEqual((none, found, run.slots.sums()["divider"]), ({}, told, divider), name)
            self.assertEqual(run.pipeline.cycle - without.pipeline.cycle, 3, name)

    def test_cycles_without_a_lost_slot(self):
        """The second load joins the miss of the first, so the division could issue in 13. The branch is resolved in 17; the division executes from
        then until 37, and would have until 33. Two instructions retire in 13, and two in 14: only 15 and 16 count, so both slots of 35 and 36
        are the defence's."""
        (without, none), (run, found) = (self.defended("filled", KEPT["filled slots"], model) for model in ("off", "spectre"))
        self.assertEqual((none, found, run.pipeline.cycle - without.pipeline.cycle), ({}, {"taint: before it issues": 4}, 4))

    def test_two_that_share_a_place(self):
        """Entry 4, a division, is kept from 43 on, when its divisor comes, until the first branch is resolved in 52: 9 cycles count. It executes
        until 72 and is the oldest, so the four slots of each of 63 to 71 are the defence's. The last load is kept from 65 on, for the second
        branch, which needs the quotient. Where it is entry 68 it takes the place of 4, and what is known of that is gone once 65 is over: then
        63, 64 and 65 are told so, and no later cycle."""
        for behind, told in ((63, 36), (64, 12), (65, 36)):
            _, found = self.defended("places", sharing(behind), "spectre", {}, **(support.LARGEST | support.LARGER))
            self.assertEqual(found, {"taint: before it issues": told}, behind)

    def test_small_programs(self):
        for name, words in PROGRAMS.items():
            image = support.image_of_words(name, words)
            for described in support.descriptions(2, ("spectre", "futuristic"), depend=2):
                with self.subTest(name=name, description=described):
                    self.taken(support.modelled(described, image, 300), image, described)

    @unittest.skipIf(support.NO_PROGRAM, support.NO_PROGRAM)
    def test_all_examples_under_each_description(self):
        """Of the images that stand in the repository, and not of what happens to be built beside them."""
        images = glob.glob(support.example("*.elf")) + [
            os.path.join(support.ROOT, "tools", "speed", "programs", name) for name in ("sort.elf", "search.elf")]
        descriptions = glob.glob(support.example("*.toml"))
        self.assertTrue(len(images) > 6 and len(descriptions) > 10, (images, descriptions))
        for image in images:
            for described in descriptions:
                with self.subTest(image=image, description=described):
                    self.taken(support.trace_of(described, image, 300 if "large" in described else 150), image, described)

    def test_bars(self):
        runs = [stack.Run(f"<{name}>", bounds_check().slots) for name in "ab"]
        root = ElementTree.fromstring(stack.picture(runs))
        wide = [float(part.get("width")) for part in root.iter("{http://www.w3.org/2000/svg}rect") if part.get("height") == str(stack.BAR)]
        self.assertEqual((len(wide), round(sum(wide))), (2 * len(BOUNDS_CHECK), 2 * stack.WIDE))
        self.assertEqual(set(slots.STACK), set(stack.COLOURS))

    def test_a_table_of_two(self):
        runs = [stack.Run(name, bounds_check().slots) for name in "ab"]
        rows = [line.split() for line in stack.table(runs)]
        self.assertIn(["load:", "memory", "9.00", "42.9%", "9.00", "42.9%"], rows)
        self.assertIn(["sum", "21.00", "100.0%", "21.00", "100.0%"], rows)


class Parts(unittest.TestCase):
    def test_a_span_of_cycles(self):
        """From 14 to 17 the multiplication is awaited, and two instructions retire."""
        run = bounds_check(span=(14, 17))
        self.assertEqual(run.slots.sums(), {"base": 2, "misprediction": 1, "simple operation": 1, "multiplier": 4})
        self.assertEqual((run.cycles, sum(run.by_reason().values())), (4, 2))
        sums = [bounds_check(span=span).slots.sums() for span in ((1, 13), (14, 17), (18, None))]
        self.assertEqual({name: sum(part.get(name, 0) for part in sums) for name in BOUNDS_CHECK}, BOUNDS_CHECK)

    def test_a_function(self):
        whole, part = bounds_check(), bounds_check(function="_start")
        self.assertEqual((part.counts.retired, part.counts.fetched), (5, whole.counts.fetched - 2))
        with self.assertRaisesRegex(Fault, "no instruction of <main>"):
            bounds_check(function="main")

    @unittest.skipIf(support.NO_IMAGES, support.NO_IMAGES)
    def test_a_span_behind_the_end(self):
        with self.assertRaisesRegex(Fault, "behind the last cycle"):
            bounds_check(span=(22, None))

    def test_json(self):
        found = json.loads("\n".join(numbers.lines_of([bounds_check()], 3)))
        self.assertEqual((found["slots"], found["cycles"], found["retire_width"], found["unexplained"]), (BOUNDS_CHECK, 21, 2, 0))
        self.assertEqual(found["cycles_by_number_retired"], [16, 5, 0])
        self.assertEqual(found["instructions"], {"fetched": 13, "renamed": 10, "squashed": 7, "retired": 5})
        self.assertEqual(found["per_thousand_retired"], {"mispredicted": 200.0, "loads_that_miss": 200.0})
        self.assertEqual(sum(row["slots"] for row in found["functions"]), 42)
        self.assertEqual([(row["address"], row["lost"]) for row in found["places"]][0], (0x10000, {"front end": 2, "load: memory": 18}))

    def test_occupancy(self):
        """The reorder buffer has at most the eight entries that stand in it in cycle 5; one line is on its way from 3 to 12."""
        occupancy = bounds_check().replay.occupancy
        told = dict(zip(occupancy.PLACES, zip(occupancy.sums, occupancy.most)))
        self.assertEqual((told["miss registers"], told["reorder buffer"][1], occupancy.cycles), ((10, 1), 8, 21))


class Comparison(unittest.TestCase):
    def test_by_reason_and_function(self):
        text = list(compare.lines_of([bounds_check(), bounds_check(span=(1, 12))], stats.MOST))
        rows = [line.split() for line in text]
        self.assertIn(["multiplier", "2.50", "0.00", "-2.50"], rows)
        self.assertIn(["sum", "21.00", "12.00", "-9.00"], rows)
        self.assertTrue(any(row[:4] == ["_start", "19.00", "10.00", "-9.00"] for row in rows), text)


class Annotated(unittest.TestCase):
    def test_instructions(self):
        text = list(annotate.lines_of(bounds_check(), True))
        self.assertEqual(text[:2], ["_start: 19.00 of 21 cycles", annotate.HEADER])
        rows = {line[70:].split()[0]: line[:70] for line in text[2:] if line[70:].split()}
        self.assertEqual(rows["00010000"].split(), ["1", "10.50", "1"])
        self.assertEqual(rows["00010018"].split(), ["9", "2"])
        self.assertEqual(rows["00010008"].split(), ["1", "3.50", "12", "1"])
