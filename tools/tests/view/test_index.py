"""The index of a long trace: a stretch of it is as that of the whole run, and an index of something else isn't used."""
import json
import os
import pickle
import unittest
import zipfile
from unittest import mock

import support
from wadrelwy.view import Fault, index, listing, numbers, stats
from wadrelwy.view.description import read_description
from wadrelwy.view.disassembly import KINDS, Disassembler
from wadrelwy.view.image import Image
from wadrelwy.view.replay import Replay
from wadrelwy.view.trace import Trace


class Index(unittest.TestCase):
    @classmethod
    def setUpClass(cls):
        cls.lines, cls.image, cls.described = support.stored("loop_by_history")
        cls.trace = support.file_of("indexed.trace", "".join(cls.lines).encode())

    def make(self, every=10):
        with mock.patch.object(index, "EVERY", every):
            loaded, told = Image(self.image), index.Told(iter(self.lines))
            replay = Replay(Trace(told), loaded, read_description(self.described))
            return index.write(replay, loaded, self.described, self.trace, told)

    def found(self, first, every=10, image=None):
        with mock.patch.object(index, "EVERY", every):
            return index.replay_from(self.trace, Image(image or self.image), self.described, first)

    def listed(self, replay, first):
        return list(listing.lines_of(replay, Disassembler(Image(self.image), KINDS), first, None))

    def test_a_stretch_is_that_of_the_whole_run(self):
        path, states = self.make(3)
        cycles = len(self.lines) - 1
        self.assertEqual((path, states), (self.trace + ".index", (cycles - 1) // 3))
        for first in range(4, cycles + 1, 2):
            replay = self.found(first, 3)
            told = self.listed(replay, first)
            whole = Replay(Trace(iter(self.lines)), Image(self.image), read_description(self.described))
            self.assertEqual(told, self.listed(whole, first), first)
            self.assertEqual((replay.reasons.unexplained, replay.trace.end.text), ([], self.lines[-1].strip()))

    def test_numbers_of_a_part(self):
        self.make(3)
        for span in ((5, 9), (8, None), (len(self.lines) - 2, None)):
            runs = [stats.Run("a", replay, Disassembler(Image(self.image), KINDS), span)
                    for replay in (self.found(span[0], 3), Replay(Trace(iter(self.lines)), Image(self.image), read_description(self.described)))]
            found, whole = [json.loads("".join(numbers.lines_of([run], 10))) for run in runs]
            self.assertEqual(found, whole)

    def test_there_is_nothing_before_the_first_state(self):
        self.make(10)
        self.assertIsNone(self.found(10))

    def test_an_index_of_something_else_is_passed_over(self):
        self.make(10)
        self.assertIsNotNone(self.found(12))
        self.assertIsNone(self.found(12, image=support.example("bounds_check.elf")))
        with open(self.trace, "a", encoding="ascii") as file:
            file.write(" ")
        self.assertIsNone(self.found(12))
        support.file_of("indexed.trace", "".join(self.lines).encode())

    def test_a_trace_of_the_same_size_is_another_one(self):
        """By what it begins or ends with, by when it was written, or by which file it is."""
        self.make(10)
        text, status = "".join(self.lines).encode(), os.stat(self.trace)
        times = status.st_atime_ns, status.st_mtime_ns

        def written(data, later=0):
            support.file_of("indexed.trace", data)
            os.utime(self.trace, ns=(times[0], times[1] + later))
        for data in (b"9" + text[1:], text[:-2] + b"?\n"):
            self.assertEqual(len(data), len(text))
            written(data)
            self.assertIsNone(self.found(12), data[-40:])
        written(text, 10 ** 9)
        self.assertIsNone(self.found(12))
        written(text)
        self.assertIsNotNone(self.found(12))
        copy = support.file_of("copied.trace", text)
        os.utime(copy, ns=times)
        os.replace(copy, self.trace)
        self.assertIsNone(self.found(12))

    def test_a_long_trace_is_summed_at_both_ends(self):
        """What stands between them is told by the time of change alone."""
        middle = bytearray(b"a" * 3 * index.ENDS)
        path = support.file_of("long.trace", middle)
        times = os.stat(path).st_atime_ns, os.stat(path).st_mtime_ns
        before = index.trace_identity(path)
        for place, same in ((0, False), (index.ENDS - 1, False), (2 * index.ENDS, False), (len(middle) - 1, False), (index.ENDS, True)):
            changed = middle.copy()
            changed[place] += 1
            support.file_of("long.trace", changed)
            os.utime(path, ns=times)
            self.assertEqual(index.trace_identity(path) == before, same, place)

    def test_an_index_without_its_trace(self):
        """What isn't there is the trace: the index isn't told to be damaged."""
        self.make(10)
        os.remove(self.trace)
        self.addCleanup(support.file_of, "indexed.trace", "".join(self.lines).encode())
        self.assertIsNone(self.found(12))

    @unittest.skipIf(support.NO_IMAGES, support.NO_IMAGES)
    def test_a_damaged_one_is_refused(self):
        self.make(10)
        with zipfile.ZipFile(self.trace + ".index") as file:
            place = file.getinfo(index.HEAD).header_offset + 30 + len(index.HEAD)
        with open(self.trace + ".index", "rb") as file:
            whole = file.read()
        # the first byte of what is packed there: no kind of block is 3
        packed = whole[:place] + b"\xff" + whole[place + 1:]
        for data in (b"", b"no zip at all", whole[:100], packed):
            support.file_of("indexed.trace.index", data)
            with self.assertRaisesRegex(Fault, "no index of a trace, or damaged"):
                self.found(12)

    def test_no_other_class_is_taken_from_it(self):
        self.make(10)
        with zipfile.ZipFile(self.trace + ".index") as file:
            head = file.read(index.HEAD)
        with zipfile.ZipFile(self.trace + ".index", "w") as file:
            file.writestr(index.HEAD, head)
            file.writestr("10", pickle.dumps(os.system))
        with self.assertRaisesRegex(Fault, "no index of a trace, or damaged"):
            self.found(12)

    def tearDown(self):
        if os.path.exists(self.trace + ".index"):
            os.remove(self.trace + ".index")
