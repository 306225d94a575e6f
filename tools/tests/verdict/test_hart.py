"""The instruction set's run: by hand, and against the simulator's `isa` on every image that there is."""
import glob
import os
import unittest

import material
from material import CODE, CORE, image_file, needs_program, programs, segment, support, words
from generate.generated import generated_image
from wadrelwy.verdict.hart import Hart, report

EXIT = [0x05d00893, 0x00000073]  # addi x17,x0,93; ecall

# Words before EXIT, and how the run ends: docs/instruction-set.md, "Traps" and "System calls".
ENDS = [
    ([], "end exit 0 retired 2"),
    ([0x02a00513], "end exit 42 retired 3"),
    ([0x00000067 | 2 << 20], "end trap 0 00010000 retired 0"),      # jalr x0,2(x0)
    ([0x0020006f], "end trap 0 00010000 retired 0"),                # jal x0,+2
    ([0x00000163], "end trap 0 00010000 retired 0"),                # beq x0,x0,+2
    ([0x00001163] + EXIT, "end exit 0 retired 3"),                  # bne x0,x0,+2 isn't taken
    ([0x0000006f | 0x100 << 20], "end trap 1 00010100 retired 1"),  # jal x0,+256: past code
    ([0x00000000], "end trap 2 00010000 retired 0"),
    ([0x00100073], "end trap 3 00010000 retired 0"),
    ([0x00112083], "end trap 4 00010000 retired 0"),                # lw x1,1(x2)
    ([0x00002083], "end trap 5 00010000 retired 0"),                # lw x1,0(x0)
    ([0x00012083 | 16 << 20], "end trap 5 00010000 retired 0"),     # lw x1,16(x2): behind memory
    ([0x001110a3], "end trap 6 00010000 retired 0"),                # sh x1,1(x2)
    ([0x00100023], "end trap 7 00010000 retired 0"),                # sb x1,0(x0)
    ([0x0000000f], "end exit 0 retired 3"),                         # fence
]


class ByHand(unittest.TestCase):
    def run_of(self, numbers, steps=100, data=b"", passing=False):
        image = material.loaded("hand.elf", [segment(CODE, words(*numbers), True), segment(material.DATA, data)])
        hart = Hart(image, passing)
        taken = list(hart.run(steps))
        return image, hart, taken

    def test_ends(self):
        for numbers, end in ENDS:
            image, hart, _ = self.run_of(numbers + EXIT)
            self.assertEqual(report(hart, image).splitlines()[-1], end, [hex(word) for word in numbers])

    def test_budget(self):
        image, hart, taken = self.run_of(EXIT, steps=1)
        self.assertEqual(report(hart, image).splitlines()[-1], "end budget retired 1")
        self.assertEqual(len(taken), 1)

    def test_passing(self):
        """A load that would trap gives 0, a store that would writes nothing; other traps end the run."""
        load, store = 0x00002103, 0x00202023  # lw x2,0(x0); sw x2,0(x0)
        _, hart, taken = self.run_of([load, store, 0x00100073], passing=True)
        self.assertEqual((hart.registers[2], hart.end), (0, ("trap", 3, CODE + 8)))
        self.assertEqual([(step.fault, step.access) for step in taken], [(5, None), (7, None)])

    def test_calls(self):
        """write(stream, address, count): stream, count and address are looked at in this order; at most 1024 bytes; -38 for no call."""
        def call(number, stream, address, count):
            return [0x00000893 | number << 20, 0x00000513 | stream << 20, *address, 0x00000613 | count << 20, 0x00000073]
        here, nowhere = [0x000105b7], [0x00000593]  # lui x11,0x10; addi x11,x0,0
        for numbers, answer, pieces in [(call(64, 1, here, 4), 4, [4]), (call(64, 2, here, 2000), 1024, [1024]), (call(64, 3, here, 4), -9, []),
                                      (call(64, 1, nowhere, 0), 0, []), (call(64, 1, nowhere, 1), -14, []), (call(1, 1, here, 4), -38, [])]:
            _, hart, _ = self.run_of(numbers)
            self.assertEqual((hart.registers[10], [len(piece) for piece in hart.out]), (answer & 0xffffffff, pieces))

    def test_report_of_the_page(self):
        """docs/formats.md, "The report": of the worked program of forwarding, without the cycles that a run of the core counts."""
        page = material.read("docs", "formats.md")
        told = page[page.index("x0 00000000\nx1 00000000\nx2 0001fff0"):]
        told = told[:told.index("```")].replace(" cycles 27", "")
        image, hart, _ = self.run_of(programs()["forwarding"], data=bytes(9))
        self.assertEqual(report(hart, image), told)


@needs_program
class AgainstIsa(unittest.TestCase):
    def agrees(self, path, steps, description=None):
        self.assertEqual(material.own_report(path, steps, description), material.isa_report(path, steps, description), path)

    def test_stored_images(self):
        """The images of the repository, in the usual memory and in that of the example."""
        paths = glob.glob(support.example("*.elf")) + glob.glob(os.path.join(support.ROOT, "crates", "*", "data", "*.elf"))
        self.assertGreaterEqual(len(paths), 6)
        for path in paths + [os.path.join(support.ROOT, "tools", "speed", "loop.elf")]:
            for steps in (1, 3, 1000):
                self.agrees(path, steps)
                self.agrees(path, steps, CORE)

    def test_random_programs(self):
        """Those of the stored runs, each under its description."""
        self.assertGreater(len(material.RUNS), 30)
        for run in material.RUNS:
            for steps in (5, 1000):
                self.agrees(os.path.join(run, "image.elf"), steps, os.path.join(run, "core.toml"))

    def test_small_programs(self):
        for name, numbers in programs().items():
            path = image_file(f"{name}.elf", numbers, material.BOUND_1 + b"\x11")
            for steps in (2, 7, 1000):
                self.agrees(path, steps, CORE)

    def test_ends(self):
        for number, (numbers, _) in enumerate(ENDS):
            self.agrees(image_file(f"end_{number}.elf", numbers + EXIT), 100)

    def test_generated_images(self):
        for seed, blocks in [(1, 1), (2, 7), (3, 100), (2 ** 63 + 5, 33)]:
            self.agrees(support.file_of(f"seed_{seed}.elf", generated_image(seed, blocks)), 100000, CORE)


if __name__ == "__main__":
    unittest.main()
