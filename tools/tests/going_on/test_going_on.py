"""Images that go on: a run cut at any step and gone on with ends as the whole one does, byte for byte of memory but for the stub's place."""
import os
import random
import subprocess
import unittest
from itertools import groupby
from types import SimpleNamespace

import support
from generate.generated import generated_image
from wadrelwy import Fault
from wadrelwy.going_on import room, stub, written
from wadrelwy.going_on.report import read_report
from wadrelwy.going_on.standing import Standing
from wadrelwy.verdict.hart import Hart
from wadrelwy.verdict.loaded import Loaded

BASE, SIZE = 0x00010000, 1 << 20
# a loop that a call of its own number parts: a7 is 1000 at each call, and t0 counts down from 3
MARKED = (0x3e800893, 0x00300293, 0x00000073, 0xfff28293, 0xfe029ce3, 0x05d00893, 0x00000513, 0x00000073)
# writes over the word behind the store with x5, which is 0, and goes on
OVER_CODE = (0x00010337, 0x00532623, 0x00000013, 0x00000013, 0x05d00893, 0x00000073)


def go_on(image, out, *words):
    return subprocess.run([support.TOOL, "continue", image, "-o", out, *words], capture_output=True, text=True)


def report(image, steps):
    ran = subprocess.run([support.PROGRAM, "isa", image, "--steps", str(steps)], capture_output=True, text=True)
    return ran.stdout


def memory(image, told):
    """Memory as a report tells it of an image."""
    found = bytearray(image.memory)
    for address, row in told.rows.items():
        found[address - BASE:address - BASE + 16] = row
    return found


class Reports(unittest.TestCase):
    REGISTERS = "".join(f"x{at} {17 * at:08x}\n" for at in range(32))
    ROWS = ("mem 00020000 000102030405060708090a0b0c0d0e0f\n", "mem 00020010 f0f1f2f3f4f5f6f7f8f9fafbfcfdfeff\n", "mem 00020030 " + 15 * "00" + "ab\n")

    def text(self, *rows):
        return "out 6869\n" + self.REGISTERS + "pc 00010020\n" + "".join(rows) + "end budget retired 12\n"

    def test_rows(self):
        """Rows that follow one another are one stretch."""
        told = read_report(self.text(*self.ROWS))
        self.assertEqual(told.changed, ((0x20000, bytes(range(16)) + bytes(range(240, 256))), (0x20030, bytes(15) + b"\xab")))
        self.assertEqual(told.rows, {0x20000: bytes(range(16)), 0x20010: bytes(range(240, 256)), 0x20030: bytes(15) + b"\xab"})
        self.assertEqual((told.registers[3], told.pc, told.end, told.retired, told.out, told.goes_on), (51, 0x10020, "budget", 12, ("out 6869",), True))
        self.assertEqual(read_report(self.text()).changed, ())

    def test_other_texts(self):
        """Of a report that was cut anywhere nothing is told, nor of rows that are none."""
        whole = self.text(*self.ROWS)
        for length in range(len(whole) - len("12\n")):
            with self.assertRaisesRegex(Fault, "no report of isa"):
                read_report(whole[:length])
        for row in (self.ROWS[0][:-2] + "\n", self.ROWS[0].replace("0c", "0 "), self.ROWS[0].replace("0c", "0x"), "mem 0002000g" + self.ROWS[0][12:],
                    self.ROWS[0].replace(" 00", "  0")):
            with self.assertRaisesRegex(Fault, "no report of isa"):
                read_report(self.text(row, *self.ROWS[1:]))


class Memory(unittest.TestCase):
    def test_runs_of_bytes(self):
        """They are the bytes between blocks that are all zero, without the zeros at both ends."""
        chance = random.Random(2)
        for _ in range(100):
            data, low = bytearray(chance.randrange(1, 200000)), chance.randrange(3000)
            for _ in range(chance.randrange(9)):
                at = chance.randrange(len(data))
                size = min(chance.choice((1, 100, 5000)), len(data) - at)
                data[at:at + size] = chance.randbytes(size)
            found = []
            for has_any, blocks in groupby(range(low, len(data), written.BLOCK), lambda at: any(data[at:at + written.BLOCK])):
                blocks = list(blocks)
                first, kept = blocks[0], data[blocks[0]:blocks[-1] + written.BLOCK]
                found += [(first + len(kept) - len(kept.lstrip(b"\0")), kept.strip(b"\0"))] if has_any else []
            self.assertEqual(list(written.runs_of_bytes(bytes(data), low, len(data))), found)

    def test_gaps(self):
        """They are the rows that no segment has a byte of and that aren't among those that changed, as many together as there are."""
        chance = random.Random(4)
        for _ in range(300):
            size = 16 * chance.randrange(1, chance.choice((4, 60, 900)))
            ranges = [(BASE + low, BASE + chance.randrange(low + 1, size + 1)) for low in (chance.randrange(size) for _ in range(chance.randrange(4)))]
            changed = {BASE + 16 * chance.randrange(size // 16) for _ in range(chance.randrange(12))}
            stands = Standing(SimpleNamespace(base=BASE, memory=bytes(size), ranges=ranges), None, b"", frozenset(changed))
            free = [row for row in range(BASE, BASE + size, 16) if row not in changed and not any(low < row + 16 and row < high for low, high in ranges)]
            found = list(room.gaps(stands))
            self.assertEqual([row for low, high in found for row in range(low, high, 16)], free)
            self.assertTrue(all(high < low for (_, high), (low, _) in zip(found, found[1:])))

    def test_middle(self):
        """The place is the nearest of all to the gap's middle, of two the lower."""
        chance, ends = random.Random(3), []
        for _ in range(300):
            low = BASE + 16 * chance.randrange(1 << 17)
            high, size = low + 16 * chance.randrange(1, chance.choice((20, 200, 9000))), stub.SIZE + chance.choice((0, 4, 2240))
            pc = max(0, low + 4 * chance.choice((chance.randrange(-1000, 1000), chance.randrange(-300000, 300000))))
            able = [place for place in range(low, high - size + 1, 16) if stub.reaches(place + size - stub.SIZE, pc)]
            nearest = min(able, key=lambda place: abs(2 * place + size - low - high), default=None)
            self.assertEqual(room.middle(low, high, pc, size), nearest)
            ends.append(nearest is None)
        self.assertEqual(set(ends), {False, True})


@unittest.skipIf(support.NO_IMAGES, support.NO_IMAGES)
class Stub(unittest.TestCase):
    def test_sets_all(self):
        """After its 63 steps the registers and the pc are those named, whatever the values."""
        chance = random.Random(1)
        for values in ([0] * 32, [0xffffffff] * 32, [0x7ff, 0x800, 0xfff, 0x80000000] * 8, [chance.getrandbits(32) for _ in range(32)]):
            path = support.file_of("stub.elf", support.elf([(5, BASE, stub.stub(BASE, values, BASE + 0x1000), stub.SIZE)]))
            run = Hart(Loaded(path, BASE, SIZE))
            self.assertEqual(len(list(run.run(stub.STEPS))), 63)
            self.assertEqual((run.registers[1:], run.pc), (values[1:], BASE + 0x1000))

    def test_reach(self):
        self.assertTrue(stub.reaches(BASE, BASE + 248 + (1 << 20) - 2) and stub.reaches(BASE + (1 << 20), BASE + 248))
        self.assertFalse(stub.reaches(BASE, BASE + 248 + (1 << 20)) or stub.reaches(BASE + (1 << 20) + 2, BASE + 248))


@unittest.skipUnless(support.PROGRAM, support.NO_PROGRAM)
@unittest.skipIf(support.NO_IMAGES, support.NO_IMAGES)
class GoingOn(unittest.TestCase):
    def ends_alike(self, path, cut):
        """The image that goes on after so many steps ends as the whole run."""
        out = os.path.join(support.FOLDER.name, "on.elf")
        made = go_on(path, out, "--steps", str(cut))
        self.assertEqual((made.returncode, made.stderr), (0, ""))
        at = int(made.stdout.split(" instructions from ")[1][:8], 16)
        whole, rest = report(path, 100000), report(out, 100000)
        one, two = read_report(whole), read_report(rest)
        self.assertEqual((one.registers, one.pc, one.end, one.retired), (two.registers, two.pc, two.end, two.retired - stub.STEPS + cut))
        before, after = (memory(Loaded(image, BASE, SIZE), told) for image, told in ((path, one), (out, two)))
        after[at - BASE:at - BASE + stub.SIZE] = bytes(stub.SIZE)
        self.assertEqual(before, after)
        said = [[line for line in text.splitlines() if line.startswith("out")] for text in (whole, rest)]
        self.assertEqual(said[0][len(said[0]) - len(said[1]):], said[1])

    def test_stored_images(self):
        for name in support.EXAMPLES:
            path = support.example(f"{name}.elf")
            for cut in range(1, read_report(report(path, 1000)).retired):
                with self.subTest(name, cut=cut):
                    self.ends_alike(path, cut)

    def test_generated_images(self):
        chance = random.Random(7)
        for seed in range(50):
            path = support.file_of(f"generated{seed}.elf", generated_image(seed, 1 + seed % 12))
            cut = chance.randrange(1, read_report(report(path, 100000)).retired)
            with self.subTest(seed, cut=cut):
                self.ends_alike(path, cut)

    def test_to_call(self):
        path, out = support.image_of_words("marked", MARKED), os.path.join(support.FOLDER.name, "marked_on.elf")
        for count, steps in ((1, 3), (2, 6), (3, 9)):
            self.assertIn(f" after {steps} steps, at 0001000c", go_on(path, out, "--to-call", f"1000:{count}").stdout)
        told = go_on(path, out, "--to-call", "1000:4")
        self.assertEqual((told.returncode, told.stdout), (2, ""))
        self.assertIn("the run ends after 14 steps, with 3 calls of the number 1000", told.stderr)

    def test_the_file(self):
        """It may be read by whoever may read other files that are written; and where it can't be, it is named."""
        path, out = support.image_of_words("marked", MARKED), os.path.join(support.FOLDER.name, "as_others.elf")
        self.assertEqual(go_on(path, out, "--steps", "2").returncode, 0)
        self.assertEqual(os.stat(out).st_mode, os.stat(path).st_mode)
        told = go_on(path, "/nowhere/at/all.elf", "--steps", "2")
        self.assertEqual((told.returncode, told.stdout, told.stderr), (2, "", "wadrelwy continue: /nowhere/at/all.elf: No such file or directory\n"))

    def test_refusals(self):
        path, over = support.image_of_words("marked", MARKED), support.image_of_words("over", OVER_CODE)
        out = os.path.join(support.FOLDER.name, "none.elf")
        for image, words, said in (
            (path, ["--steps", "14"], "the run ends after 14 steps (exit 0), so nothing goes on after 14"),
            (over, ["--steps", "2"], "the run has written over its code at 0001000c"),
            (path, ["--steps", "2", "--at", "0x10000"], "aren't all of memory that no segment takes"),
            (path, ["--steps", "2", "--at", "0x20002"], "code stands at multiples of 4"),
            ("/dev/null", ["--steps", "2"], "no ELF image"),
            (path, ["--steps", "none"], "invalid number value"),
            (path, [], "one of the arguments --steps --to-call is required"),
        ):
            with self.subTest(words):
                told = go_on(image, out, *words)
                self.assertEqual((told.returncode, told.stdout, os.path.exists(out)), (2, "", False))
                self.assertIn(said, told.stderr)
                self.assertEqual(told.stderr.count("\n"), 1)


if __name__ == "__main__":
    unittest.main()
