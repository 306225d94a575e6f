"""Random programs with accesses at any address come out as under qemu-riscv32."""
import os
import subprocess
import sys
import unittest

HERE = os.path.dirname(os.path.dirname(os.path.realpath(__file__)))

sys.dont_write_bytecode = True
import compare  # finds the modules below
from wadrelwy import built_programs
import generate

MISSING = compare.missing()
PROGRAMS = range(1, 7)


class Unaligned(unittest.TestCase):
    def test_a_number_makes_one_program(self):
        self.assertEqual(generate.program(7), generate.program(7))
        self.assertNotEqual(generate.program(7), generate.program(8))

    def test_a_simulator_that_is_named_has_to_be_there(self):
        """It isn't left out, as one that nobody names is where none is built."""
        for words, named in ((["--program", "/nowhere/a"], None), ([], "/nowhere/a")):
            kept = {name: value for name, value in os.environ.items() if name != "STT_CLI"}
            ran = subprocess.run([sys.executable, os.path.join(HERE, "run"), "--programs", "1", *words], capture_output=True, text=True,
                                 check=False, env=kept | ({"STT_CLI": named} if named else {}))
            self.assertEqual((ran.returncode, ran.stdout), (2, ""))
            self.assertIn("no program stt_cli at /nowhere/a", ran.stderr)

    def test_no_programs_are_refused(self):
        """A run that compared nothing has found nothing wrong."""
        for number in ("0", "-1", "many"):
            ran = subprocess.run([sys.executable, os.path.join(HERE, "run"), "--programs", number], capture_output=True, text=True, check=False)
            self.assertEqual((ran.returncode, ran.stdout), (2, ""))
            self.assertIn(f"`{number}` is no number from 1 to ", ran.stderr)

    def compared(self, program):
        same, wrong, accesses = compare.compare(PROGRAMS, program)
        self.assertEqual((same, wrong), (len(PROGRAMS), 0))
        self.assertGreater(accesses, 50)

    @unittest.skipIf(MISSING, f"no {', '.join(MISSING)}")
    def test_own_instruction_set(self):
        self.compared(None)

    @unittest.skipIf(MISSING, f"no {', '.join(MISSING)}")
    @unittest.skipUnless(built_programs.simulator(), "the program isn't built (crates/stt_cli/out/stt_cli, or STT_CLI)")
    def test_the_simulator(self):
        self.compared(built_programs.simulator())
