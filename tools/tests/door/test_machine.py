"""The built programs behind the door: standard output byte for byte, and on standard error what they don't say. The programs are stand-ins
whose answers stand here, but for the last test."""
import os
import re
import subprocess
import sys
import tempfile
import unittest

import support
from programs import EXIT
from wadrelwy import statuses
from wadrelwy.machine import notes
from wadrelwy.riscv.encoding import addi, lw

CORE, BOUNDS = support.example("core.toml"), support.example("bounds_check.elf")
REGISTERS = "".join(f"x{number} {0x20000 if number == 2 else number:08x}\n" for number in range(32))
TRAP = "end trap 5 00010004 retired 1"
# a stand-in's answer and status, and what stands on standard error
BYTES = b"out 00\n\xff\x00\r\nend exit 0 retired 1 cycles 2\n"


class StandIn(unittest.TestCase):
    def setUp(self):
        folder = tempfile.TemporaryDirectory()
        self.addCleanup(folder.cleanup)
        self.folder = folder.name
        self.image = support.image_of_words("trapping", [addi(5, 2, 0), lw(6, 5, 4), *EXIT])

    def program(self, text, name="stt_cli"):
        path = os.path.join(self.folder, name)
        with open(path, "w", encoding="ascii") as file:
            file.write(f"#!/bin/sh\n{text}\n")
        os.chmod(path, 0o755)
        return path

    def answering(self, written, status, note=""):
        """A program that writes these bytes, whatever it is asked."""
        path = os.path.join(self.folder, "written")
        with open(path, "wb") as file:
            file.write(written)
        return self.program(f"cat {path}\n{f'echo {note!r} >&2' if note else ''}\nexit {status}")

    def ask(self, *words):
        told = subprocess.run([sys.executable, support.TOOL, *words], capture_output=True, timeout=60)
        return told.stdout, told.stderr.decode(), told.returncode

    def test_byte_for_byte(self):
        for command in ("run", "trace"):
            program = self.answering(BYTES, 0)
            self.assertEqual(self.ask(command, CORE, BOUNDS, "--program", program), (BYTES, "", 0))
        self.assertEqual(self.ask("isa", BOUNDS, "--program", program), (BYTES, "", 0))
        self.assertEqual(self.ask("pair", CORE, BOUNDS, BOUNDS, "--program", program), (BYTES, "", 0))
        self.assertEqual(self.ask("bench", CORE, "--seed", "1", "--blocks", "2", "--program", program), (BYTES, "", 0))
        self.assertEqual(self.ask("secrets", CORE, BOUNDS, "--secret", "0x1fff8:1", "--program", program), (BYTES, "", 0))

    def test_the_words_that_are_asked(self):
        program = self.program('echo "$@"')
        for words, asked in (
                (["run", "d", "i"], "run d i --cycles 4294967295"), (["trace", "d", "i"], "trace d i --cycles 1000000"),
                (["isa", "i", "--desc", "d", "--steps", "7"], "isa i --steps 7 --desc d"), (["pair", "d", "i", "j"], "pair d i j --cycles 4294967295"),
                (["bench", "d", "--seed", "1", "--blocks", "2", "--cycles", "9"], "bench d --seed 1 --blocks 2 --cycles 9"),
                (["secrets", "d", "i", "--secret", "1:2", "--secret", "3:4"], "d i --secret 1:2 --secret 3:4 --cycles 4294967295"),
                (["secrets", "d", "i", "--public-stream", "2", "--secret", "1:2", "--public-stream=+01"],
                 "d i --secret 1:2 --public-stream 1 --public-stream 2 --cycles 4294967295")):
            self.assertEqual(self.ask(*words, "--program", program), (f"{asked}\n".encode(), "", 0))

    @unittest.skipIf(support.NO_IMAGES, support.NO_IMAGES)
    def test_a_trap(self):
        """With a report its registers tell the address; of a trace those of `isa` do."""
        report = f"{REGISTERS}pc 00010004\n{TRAP} cycles 9\n".encode()
        reported = self.answering(report, 1)
        for command in ("run", "trace"):
            written, note, status = self.ask(command, CORE, self.image, "--program", reported)
            self.assertEqual((written, status), (report, 1))
            wanted = r"trap 5, a load outside memory, of 00000009, by 00010004 (lw t1, 5\(tp\)|load x6, x4)"
            self.assertRegex(note, rf"^wadrelwy {command}: {wanted}\n$")

    @unittest.skipIf(support.NO_IMAGES, support.NO_IMAGES)
    def test_a_trap_of_a_jump(self):
        report = f"{REGISTERS}pc 00000000\nend trap 1 00000000 retired 1\n".encode()
        _, note, _ = self.ask("isa", self.image, "--program", self.answering(report, 1))
        self.assertEqual(note, "wadrelwy isa: trap 1, a jump to an address that isn't code, to 00000000; x1 holds 00000001, behind the last "
                               "call or return\n")

    def test_a_budget(self):
        _, note, status = self.ask("run", CORE, BOUNDS, "--program", self.answering(b"end budget retired 1 cycles 1\n", 3))
        self.assertEqual((note.count("\n"), status), (1, statuses.CUT))
        self.assertIn("the budget ended it", note)

    def test_refusals_are_explained(self):
        for note, status, wanted in (
                ("image E3 2", 5, f"{BOUNDS}: image E3 2: a 64-bit image: build with -march=rv32im -mabi=ilp32"),
                ("description K5 cache.line 128", 4, f"{CORE}: description K5 cache.line 128: cache.line is 4 to 64, and 128 isn't"),
                ("description K2 stt.defence", 4, "`version = 2` as the first line"), ("image2 E2", 5, "/other: image2 E2: no ELF image")):
            words = ["pair", CORE, BOUNDS, "/other"] if "image2" in note else ["run", CORE, BOUNDS]
            written, told, ended = self.ask(*words, "--program", self.answering(b"", status, note))
            self.assertEqual((written, ended, told.count("\n")), (b"", status, 1))
            self.assertIn(wanted, told)

    def test_a_file_that_isnt_there(self):
        told = self.ask("run", CORE, "/nowhere/at/all", "--program", self.answering(b"", 6, "read image"))
        self.assertEqual(told, (b"", "wadrelwy run: /nowhere/at/all: No such file or directory\n", 6))

    def test_a_program_that_is_killed(self):
        written, note, status = self.ask("run", CORE, BOUNDS, "--program", self.program("echo out 61; kill -9 $$"))
        self.assertEqual((written, status), (b"out 61\n", 137))
        self.assertIn("killed by SIGKILL", note)

    @unittest.skipIf(support.NO_PROGRAM, support.NO_PROGRAM)
    def test_the_program_itself(self):
        """A load that traps: the report is the program's, and the line names the instruction and the address."""
        for command in ("run", "trace"):
            plain = subprocess.run([support.PROGRAM, command, CORE, self.image, "--cycles", "1000"], capture_output=True, timeout=60)
            written, note, status = self.ask(command, CORE, self.image, "--cycles", "1000", "--program", support.PROGRAM)
            self.assertEqual((written, status), (plain.stdout, plain.returncode))
            self.assertEqual(status, 1)
            self.assertRegex(note, rf"^wadrelwy {command}: trap [45], a load ")
        self.assertEqual(self.ask("run", BOUNDS, CORE, "--program", support.PROGRAM)[1:],
                         (f"wadrelwy run: {BOUNDS}: description K1: no TOML text: are description and image exchanged?\n", 4))


class Notes(unittest.TestCase):
    def test_ranges_are_those_of_the_page(self):
        with open(os.path.join(support.ROOT, "docs", "formats.md"), encoding="utf-8") as file:
            text = file.read()
        cells = [[cell.strip() for cell in line.split("|")] for line in re.findall(r"(?m)^\| `\w+\.\w+` \|.*$", text)]
        rows = [(row[1].strip("`"), row[4], row[5]) for row in cells if len(row) > 6]
        self.assertEqual(notes.RANGES, {key: told for key, told, _ in rows if told and '"' not in told})
        shapes = {key: told for key, told_range, told in rows if told and told_range}
        for key, told in shapes.items():
            if key not in ("ram.misaligned", "cache.second_latency", *notes.NAMES):
                self.assertEqual(notes.SHAPES[key], told.replace("`", ""), key)

    def test_each_note_has_a_meaning(self):
        told = ["words", "description too long", "description K1", "description K2 x", "description K3 core.rob", "description K4 core",
                "description K4 stt.model", "description K5 version 3", "description K6 ram.size", "image too long", "image E1 52 0", "image E2",
                "image2 E14 0", "secret 0 outside", "secret 1 code", "write", "memory", *(f"image E{number} 1" for number in range(3, 10)),
                "image E10 1 2", *(f"image2 E{number} 0" for number in range(11, 14))]
        for note in told:
            self.assertTrue(notes.meaning(note), note)
        self.assertIsNone(notes.meaning("image E99"))


if __name__ == "__main__":
    unittest.main()
