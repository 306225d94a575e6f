"""What docs/secrets.md, "Read it twice", says of the programs of examples/answers."""
import os
import re
import shutil
import subprocess
import sys
import tempfile
import unittest

FOLDER = os.path.dirname(os.path.dirname(os.path.abspath(__file__)))
ROOT = os.path.dirname(os.path.dirname(FOLDER))
sys.path[:0] = [os.path.join(ROOT, "examples", "crypto", "tests")]

import test_crypto  # finds the modules of the tools, too
from test_crypto import PROGRAM, Secret, simulator

from wadrelwy import built_programs

SECRETS = built_programs.secrets()
GCC = "riscv64-unknown-elf-gcc"
TOOL = os.path.join(ROOT, "tools", "wadrelwy")
NAMES = ("behind_return", "derived_key", "one_in_4096", "trap_first")
CYCLES = "10000"
WITHOUT, WITH = (os.path.join(ROOT, "examples", f"large_{name}.toml") for name in ("passing", "returns"))
MEMORY = (0x00020000).to_bytes(4, "little")
BASE, SIZE = 0x00010000, 1 << 20


@unittest.skipUnless(shutil.which(GCC) and shutil.which("make"), "no gcc for RISC-V, or no make: examples/answers isn't built")
class Answers(unittest.TestCase):
    @classmethod
    def setUpClass(cls):
        kept = tempfile.TemporaryDirectory()
        cls.addClassCleanup(kept.cleanup)
        cls.folder = kept.name
        subprocess.run(["make", "-s", "-C", FOLDER, f"BUILD={kept.name}"], check=True, capture_output=True)

    def secret(self, name, symbol="secret"):
        return Secret(os.path.join(self.folder, f"{name}.elf"), symbol)

    def asked(self, description, name, symbol="secret"):
        """The first word, the kind of what shows, and how the run ended."""
        secret = self.secret(name, symbol)
        words = [SECRETS, description, secret.path, "--secret", f"{secret.address:#x}:{secret.size}", "--cycles", CYCLES]
        lines = subprocess.run(words, capture_output=True, text=True, check=False).stdout.splitlines()
        first, *kind = lines[0].split()
        return (first, kind[1]) if kind else (first, " ".join(lines[-1].split()[:3]))

    @unittest.skipUnless(SECRETS, "the program stt_secrets isn't built")
    def test_answers(self):
        for description, name, symbol, wanted in [
                (WITHOUT, "behind_return", "secret", ("shown", "access")), (WITH, "behind_return", "secret", ("hidden", "end exit 0")),
                (WITHOUT, "one_in_4096", "secret", ("shown", "access")), (WITH, "one_in_4096", "secret", ("hidden", "end exit 0")),
                (WITH, "derived_key", "secret", ("hidden", "end exit 0")), (WITH, "derived_key", "seed", ("shown", "access")),
                (WITH, "trap_first", "secret", ("hidden", "end trap 5"))]:
            with self.subTest(name=name, symbol=symbol, description=os.path.basename(description)):
                self.assertEqual(self.asked(description, name, symbol), wanted)

    def told(self, *words):
        """The status of a command of the tools, and what it writes."""
        ended = subprocess.run([TOOL, *words], capture_output=True, text=True, check=False)
        self.assertEqual(ended.stderr, "")
        return ended.returncode, ended.stdout

    @unittest.skipUnless(SECRETS and PROGRAM, "the programs aren't built")
    def test_verdicts(self):
        """A wrong path is told as one, with the return behind which it lies; a derived key, and a trap before the key is used, have words and
        statuses of their own."""
        behind = r"\n +on a wrong path, behind [0-9a-f]{8} ret <routine\+0x4>, which was predicted to go on at [0-9a-f]{8} <%s>\n"
        for name, symbol, status, wanted in [
                ("behind_return", "secret", 1, behind % "look_up"), ("one_in_4096", "secret", 1, behind % "first_of"),
                ("derived_key", "secret", 13, r"\npath +loads 0 of these 1 bytes; 1 is written over before\n(.*\n)*verdict +vacuous: "),
                ("derived_key", "seed", 1, r"\n +on the path: the instruction retires\n"),
                ("trap_first", "secret", 12, r"\npath +loads 0 of these 1 bytes\n(.*\n)*verdict +vacuous, to a trap in cycle \d+: ")]:
            with self.subTest(name=name, symbol=symbol):
                words = (WITHOUT, self.secret(name).path, "--secret", symbol, "--secrets-program", SECRETS, "--program", PROGRAM)
                answered, said = self.told("verdict", *words)
                self.assertEqual(answered, status)
                self.assertRegex(said, wanted)

    @unittest.skipUnless(SECRETS and PROGRAM, "the programs aren't built")
    def test_table(self):
        """A table tells wrong paths, too; of each exposure a pair is found, of the one that one word in 4096 meets by an address of memory."""
        folder = os.path.join(self.folder, "table")
        images = [self.secret(name).path for name in NAMES]
        status, said = self.told("certify", folder, "--programs", *images, "--secret", "secret", "--descriptions", WITHOUT, WITH, "--jobs", "1",
                                 "--secrets-program", SECRETS, "--program", PROGRAM)
        self.assertEqual(status, 1)
        cells = {row[0]: row[3:] for row in (line.strip("| ").split(" | ") for line in said.splitlines() if line.startswith("| `"))}
        for name, place in [("behind_return", "look_up+0xc"), ("one_in_4096", "first_of")]:
            self.assertRegex(cells[f"`{name}`"][0], rf"^\*\*address\*\*, `{re.escape(place)}`, cycle \d+, wrong path behind `routine\+0x4`$")
            self.assertEqual(cells[f"`{name}`"][1], "certified")
        self.assertEqual(cells["`derived_key`"], ["vacuous; 1 of 1 bytes written over"] * 2)
        for cell in cells["`trap_first`"]:
            self.assertRegex(cell, r"^vacuous, to a trap in cycle \d+$")
        status, said = self.told("draw", folder, "--jobs", "1", "--program", PROGRAM)
        lines = said.splitlines()
        self.assertEqual((status, len(lines), sum("; none of " in line for line in lines)), (0, 8, 6))
        found = re.search(r"^one_in_4096 \S+ large_passing spectre: exposed; unequal in cycle \d+, with the secrets 83828180 and (\w+), ", said, re.MULTILINE)
        self.assertTrue(BASE <= int.from_bytes(bytes.fromhex(found[1]), "little") < BASE + SIZE, found[1])

    @unittest.skipUnless(PROGRAM, "the program isn't built")
    def test_one_in_4096(self):
        """Words that aren't addresses of memory have one trace, and a word that is has another, but where returns are predicted by a stack."""
        secret = self.secret("one_in_4096")
        for description, value, is_unequal in [(WITHOUT, bytes(4), False), (WITHOUT, b"\xff\x00\x5a\x91", False), (WITHOUT, MEMORY, True),
                                               (WITH, MEMORY, False)]:
            with self.subTest(description=os.path.basename(description), value=value.hex()):
                words = ("pair", description, secret.path, test_crypto.Secret.other(secret, value), "--cycles", CYCLES)
                self.assertEqual(simulator.answer(simulator.run(PROGRAM, *words)).unequal is not None, is_unequal)

    @unittest.skipUnless(PROGRAM, "the program isn't built")
    def test_behind_return(self):
        secret = self.secret("behind_return")
        for description, is_unequal in [(WITHOUT, True), (WITH, False)]:
            words = ("pair", description, secret.path, secret.other(b"\xc0"), "--cycles", CYCLES)
            self.assertEqual(simulator.answer(simulator.run(PROGRAM, *words)).unequal is not None, is_unequal)


if __name__ == "__main__":
    unittest.main()
