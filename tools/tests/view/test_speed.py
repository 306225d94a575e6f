"""What makes long traces fast changes no answer: cycles in which nothing happens are passed over, and PyPy does the work."""
import io
import os
import random
import shutil
import subprocess
import sys
import unittest
from unittest import mock

import aliasing
import support
from programs import PROGRAMS
from wadrelwy.view import Fault, faster, pipeline
from wadrelwy.view.description import read_description
from wadrelwy.view.image import Image
from wadrelwy.view.replay import Replay
from wadrelwy.view.slots import Occupancy
from wadrelwy.view.trace import Trace



def taken(lines, image, described, skips):
    """All that a run tells."""
    run = Replay(Trace(iter(lines)), Image(image), read_description(described))
    run.skips, run.occupancy = skips, Occupancy(4)
    run.repeated, repeat = 0, run.repeat

    def counting(cycle):
        run.repeated += 1
        repeat(cycle)
    run.repeat = counting
    waits = [[(wait.first, wait.last, wait.reason, wait.serial) for wait in item.waits] for item in run.items()]
    stalls = [(stall.first, stall.last, stall.reason, stall.pc) for stall in run.front.stalls]
    return run.repeated, (waits, stalls, run.reasons.idle, run.front.rename, run.front.fetch, run.slots.lost, run.reasons.unexplained,
                          run.occupancy.sums, run.occupancy.most, run.occupancy.retired)


class Quiet(unittest.TestCase):
    def same(self, lines, image, described):
        repeated, found = taken(lines, image, described, True)
        self.assertEqual(found, taken(lines, image, described, False)[1])
        return repeated

    @unittest.skipIf(support.NO_IMAGES, support.NO_IMAGES)
    def test_small_programs(self):
        repeated = 0
        for name, words in PROGRAMS.items():
            image = support.image_of_words("quiet", words)
            for keys in support.defended(depend=2):
                for described in support.descriptions(2, ("spectre", "futuristic"), **keys):
                    with self.subTest(name=name, description=described):
                        repeated += self.same(support.modelled(described, image, 1000), image, described)
        self.assertGreater(repeated, 1000)

    def test_random_programs(self):
        draw = random.Random(3)
        for number in range(12):
            image, described = aliasing.image(draw, "quiet"), aliasing.description(draw, "quiet")
            with self.subTest(number=number):
                self.same(support.modelled(described, image, 2000), image, described)

    def test_a_wait_that_nothing_explains_is_told_in_each_cycle(self):
        lines = support.worked_trace("Fault shadow")
        files = support.example("fault_shadow.elf"), support.example("core.toml")
        lines[15] = "16 done:4\n"
        told = taken(lines, *files, True)[1][6]
        self.assertEqual(told, taken(lines, *files, False)[1][6])
        self.assertGreater(len(told), 3)


class Ring(unittest.TestCase):
    """The entries in flight are found by the low bits of their serials."""

    def test_it_grows(self):
        """Where it is too short for what is in flight, the run tells the same."""
        image, described = support.image_of_words("ring", PROGRAMS["forwarding"]), support.example("core.toml")
        lines = support.modelled(described, image, 1000)
        found = taken(lines, image, described, True)
        with mock.patch.object(pipeline, "RING", 2):
            self.assertEqual(taken(lines, image, described, True), found)
            run = Replay(Trace(iter(lines)), Image(image), read_description(described))
            self.assertEqual(len(run.pipeline.ring), 2)
            self.assertTrue(list(run.items()))
        self.assertGreater(len(run.pipeline.ring), 2)

    @unittest.skipIf(support.NO_IMAGES, support.NO_IMAGES)
    def test_a_serial_in_flight(self):
        """What is renamed with the serial of another entry in flight can't follow."""
        lines = "".join(support.worked_trace("Bounds check bypass")).replace("ren:1:", "ren:0:", 1).splitlines(keepends=True)
        with self.assertRaisesRegex(Fault, r"ren:0:00010004 can't follow, as entry 0 is in flight"):
            taken(lines, support.example("bounds_check.elf"), support.example("core.toml"), True)


class Advice(unittest.TestCase):
    def test_what_is_advised(self):
        """On a terminal, where a trace is long."""
        small = support.file_of("small.trace", b"1\n")
        screen = io.StringIO()
        with mock.patch.object(screen, "isatty", lambda: True):
            faster.advise(["stats", small], screen)
            self.assertEqual(screen.getvalue(), "")
            with mock.patch.object(faster, "LARGE", 1):
                faster.advise(["stats", small], screen)
                self.assertIn("`tools/compile`", screen.getvalue())
