"""The path and the premises (docs/machine.md, "Paths"; docs/theorems.md, "Noninterference")."""
import unittest

from material import BOUND_0, BOUND_1, CODE, CORE, DATA, SECRET, gadget, loaded, segment, support, words
from wadrelwy.verdict.path import walk
from wadrelwy.verdict.premises import premises
from wadrelwy.view import Fault
from wadrelwy.view.description import read_description

EXITS = words(0x05d00893, 0x00000073)  # addi x17,x0,93; ecall


def pair(name, bound):
    """A gadget with two secrets."""
    return [gadget(name, bound + secret) for secret in (b"\x11", b"\x22")]


def met(one, two, model="spectre", retired=100):
    return premises(one, two, read_description(CORE)._replace(model=model), retired)


class Paths(unittest.TestCase):
    def test_bounds_check(self):
        """With the bound 0 the path loads the bound's four bytes; with the bound 1 the secret and what it points to besides."""
        kept = walk(gadget("bounds_check", BOUND_0 + b"\x11"), "spectre", 100)
        self.assertEqual(kept.loads, dict.fromkeys(range(DATA, DATA + 4), CODE))
        self.assertEqual((kept.steps, kept.end), (5, ("exit", 0)))
        passed = walk(gadget("bounds_check", BOUND_1 + b"\x11"), "spectre", 100)
        line = DATA + 0x110 - 2048
        self.assertEqual(sorted(passed.loads), sorted([*range(DATA, DATA + 4), SECRET, *range(line, line + 4)]))
        self.assertEqual(passed.loads[SECRET], CODE + 12)

    def test_fault_shadow(self):
        """Under `spectre` the path goes past the fault, and loads the secret; under `futuristic` it ends there."""
        image = gadget("fault_shadow", BOUND_0 + b"\x11")
        self.assertEqual(walk(image, "spectre", 100).loads[SECRET], CODE + 8)
        past, ended = walk(image, "spectre", 100), walk(image, "futuristic", 100)
        self.assertEqual((past.steps, past.end), (6, ("trap", 1, CODE + 24)))
        self.assertEqual((ended.steps, ended.loads, ended.end), (1, {}, ("trap", 5, CODE + 4)))

    def test_steps(self):
        """A load counts only among the steps that are asked for."""
        image = gadget("bounds_check", BOUND_1 + b"\x11")
        self.assertNotIn(SECRET, walk(image, "spectre", 3).loads)
        self.assertIn(SECRET, walk(image, "spectre", 4).loads)


class Premises(unittest.TestCase):
    def test_memory_not_loaded(self):
        found = met(*pair("bounds_check", BOUND_0))
        self.assertEqual((found.met, found.code, found.memory, found.shown), (True, [], [SECRET], {}))

    def test_memory_loaded(self):
        found = met(*pair("bounds_check", BOUND_1))
        self.assertEqual((found.met, found.shown), (False, {SECRET: CODE + 12}))

    def test_models(self):
        images = pair("fault_shadow", BOUND_0)
        self.assertEqual([met(*images, model).met for model in ("spectre", "off", "futuristic")], [False, False, True])

    def test_window_beyond_what_retired(self):
        """The path goes on for as many steps as the window may hold: 16 under core.toml."""
        code = segment(CODE, words(*[0x00000013] * 20, 0x00814303), True)  # nop; lbu x6,8(x2)
        images = [loaded(f"{secret}.elf", [code, segment(DATA, BOUND_0 + bytes([secret]))]) for secret in (1, 2)]
        self.assertEqual([met(*images, retired=retired).met for retired in (4, 5)], [True, False])

    def test_constants_in_code(self):
        """A constant in the executable segment is code, also where nothing is executed; in another segment it isn't."""
        found = met(*(loaded(f"{one}.elf", [segment(CODE, EXITS + words(one), True)]) for one in (1, 2)))
        self.assertEqual((found.met, found.code, found.memory, found.shown), (False, [CODE + 8], [CODE + 8], {}))
        found = met(*(loaded(f"{one}.elf", [segment(CODE, EXITS, True), segment(CODE + 8, words(one))]) for one in (1, 2)))
        self.assertEqual((found.met, found.code, found.memory), (True, [], [CODE + 8]))

    def test_bytes_that_are_no_word(self):
        """Code is whole words at multiples of 4: three bytes at the end of an executable segment aren't code."""
        found = met(*(loaded(f"{one}.elf", [segment(CODE, EXITS + bytes([one, 0, 0]), True)]) for one in (1, 2)))
        self.assertEqual((found.met, found.code, found.memory), (True, [], [CODE + 8]))

    def test_entry(self):
        code = segment(CODE, words(0x00000013) + EXITS, True)
        found = met(loaded("a.elf", [code]), loaded("b.elf", [code], CODE + 4))
        self.assertEqual((found.met, found.one_entry, found.code, found.memory), (False, False, [], []))


class Loading(unittest.TestCase):
    def test_later_segment_stands(self):
        """Where two segments take an address the later one's byte stands, in memory and in code, its zero bytes too."""
        image = loaded("over.elf", [segment(CODE, words(1, 2, 3), True), (6, CODE + 4, b"\7", 4)])
        self.assertEqual([image.words[CODE + at] for at in (0, 4, 8)], [1, 7, 3])
        self.assertEqual(image.memory[:16], words(1, 7, 3, 0))
        self.assertNotIn(CODE + 12, image.words)

    @unittest.skipIf(support.NO_IMAGES, support.NO_IMAGES)
    def test_outside_memory(self):
        with self.assertRaisesRegex(Fault, "takes 00008000 to 00008003, and memory is 00010000 to 0001ffff"):
            loaded("low.elf", [segment(0x8000, words(1), True)])


if __name__ == "__main__":
    unittest.main()
