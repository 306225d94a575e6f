"""Generated images (docs/formats.md, "Generated images")."""
import os
import subprocess
import sys
import tempfile
import unittest
from itertools import islice

ROOT = os.path.dirname(os.path.dirname(os.path.dirname(os.path.dirname(os.path.abspath(__file__)))))
from wadrelwy import built_programs
from generate.generated import draws, generated_image, program
from wadrelwy.riscv.encoding import add, addi, beq, blt, div, jal, lw, mul, sw, xor

PROGRAM = built_programs.simulator()
DESCRIPTION = os.path.join(ROOT, "examples", "core.toml")
GENERATE = os.path.join(ROOT, "tools", "generate", "generate")


class Numbers(unittest.TestCase):
    def test_draws_are_those_of_the_c_standards_example(self):
        """The generator is that of C's example of `rand`, whose numbers from seed 1 on are well known."""
        self.assertEqual(list(islice(draws(1), 5)), [16838, 5758, 10113, 17515, 31051])

    def test_a_seed_counts_modulo_2_31(self):
        self.assertEqual(list(islice(draws(1 + 2**31), 5)), list(islice(draws(1), 5)))


class Words(unittest.TestCase):
    def test_words_are_those_that_binutils_assembles(self):
        for word, text in ((0xC0010413, addi(8, 2, -1024)), (0x00400493, addi(9, 0, 4)), (0x1F842283, lw(5, 504, 8)),
                           (0x3E742E23, sw(7, 1020, 8)), (0x00530333, add(6, 6, 5)), (0x0062C2B3, xor(5, 5, 6)),
                           (0x026282B3, mul(5, 5, 6)), (0x0262C2B3, div(5, 5, 6)), (0x0062C463, blt(5, 6, 8)),
                           (0x00048463, beq(9, 0, 8)), (0xFF1FF06F, jal(0, -16)), (0xFF9FE06F, jal(0, -4104))):
            self.assertEqual(hex(text), hex(word))

    def test_the_first_program(self):
        """From seed 1: form 16838 mod 6 = 2, offset 4 * (5758 mod 256) = 504, x5 and 10113 mod 3, x5 and 17515 mod 3."""
        self.assertEqual(program(1, 1), [addi(8, 2, -1024), addi(9, 0, 4), lw(5, 504, 8), add(6, 6, 5), addi(9, 9, -1),
                                         beq(9, 0, 8), jal(0, -16), addi(17, 0, 93), 0x00000073])

    def test_a_block_is_two_words_and_there_are_seven_more(self):
        self.assertEqual([len(program(3, blocks)) for blocks in (1, 2, 4096)], [9, 11, 8199])

    def test_the_file(self):
        data = generated_image(1, 1)
        self.assertEqual(len(data), 52 + 32 + 36)
        self.assertEqual(data[:7], b"\x7fELF\x01\x01\x01")
        self.assertEqual(data[16:28], bytes([2, 0, 243, 0, 1, 0, 0, 0, 0, 0, 1, 0]))
        self.assertEqual(data[84:88], 0xC0010413.to_bytes(4, "little"))


class Command(unittest.TestCase):
    def setUp(self):
        self.folder = tempfile.TemporaryDirectory()
        self.addCleanup(self.folder.cleanup)
        self.image = os.path.join(self.folder.name, "generated.elf")

    def generate(self, seed, blocks):
        words = [sys.executable, GENERATE, "--seed", str(seed), "--blocks", str(blocks), self.image]
        return subprocess.run(words, capture_output=True, timeout=60)

    def test_it_writes_the_image(self):
        self.assertEqual(self.generate(5, 3).returncode, 0)
        with open(self.image, "rb") as file:
            self.assertEqual(file.read(), generated_image(5, 3))

    def test_numbers_out_of_range_are_refused(self):
        for seed, blocks in ((-1, 1), (2**64, 1), (1, 0), (1, 4097), ("x", 1)):
            self.assertEqual(self.generate(seed, blocks).returncode, 2)

    @unittest.skipUnless(PROGRAM, "the program isn't built (crates/stt_cli/out/stt_cli, or STT_CLI)")
    def test_bench_and_run_on_the_written_image_give_one_report(self):
        for seed, blocks in [(seed, 1 + 3 * seed) for seed in range(20)] + [(2**31 + 7, 5), (2**64 - 1, 64), (7, 4096)]:
            with self.subTest(seed=seed, blocks=blocks):
                self.generate(seed, blocks)
                bench = subprocess.run([PROGRAM, "bench", DESCRIPTION, "--seed", str(seed), "--blocks", str(blocks),
                                        "--cycles", "200000"], capture_output=True, timeout=60)
                run = subprocess.run([PROGRAM, "run", DESCRIPTION, self.image, "--cycles", "200000"], capture_output=True, timeout=60)
                self.assertEqual((bench.returncode, bench.stdout, bench.stderr), (0, run.stdout, b""))
