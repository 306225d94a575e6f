"""Secrets by name, certificates and tables of them (docs/secrets.md): texts by stand-ins, and what the program says of small images."""
import csv
import glob
import hashlib
import json
import os
import re
import shutil
import subprocess
import sys
import tempfile
import unittest
from types import SimpleNamespace
from unittest import mock

import material  # finds the modules below
from wadrelwy import built_programs
from material import BOUND_0, CORE, SECRET, command, gadget, support
from wadrelwy.verdict import certifying, drawing, judge, premises, ranges, report, secrecy, simulator, wrong_path
from wadrelwy.verdict.ranges import Range
from wadrelwy.view import Fault
from wadrelwy.view.description import read_description

UNPROTECTED = support.example("core_unprotected.toml")
GCC = "riscv64-unknown-elf-gcc"
PROGRAM = built_programs.secrets()
needs_secrets = unittest.skipUnless(PROGRAM, "the program stt_secrets isn't built (crates/stt_secrets/out/stt_secrets, or STT_SECRETS)")
HIDDEN, CUT = "hidden\nend exit 0 retired 5 cycles 21\n", "hidden\nend budget retired 3 cycles 12\n"
SHOWN = "shown 15 access 6 00010018\n"
WORD = f"0x{SECRET:08x}:1"
# lbu x6, 8(x2), which loads the secret; what follows uses it, and the run ends by an exit
LOADS, EXITS = 0x00814303, (0x05d00893, 0x00000073)
# sb x0, 8(x2), and then the load
STORES = (0x00010423, LOADS, *EXITS)
DOUBLES, BRANCHES = 0x006303b3, 0x00037463
TEXT = "".join(support.worked_trace("Bounds check bypass")).splitlines(keepends=True)


def loading(*numbers):
    """An image that loads the secret, or does something else, and ends by an exit."""
    numbers = numbers or (LOADS, DOUBLES, *EXITS)
    return material.image_file(f"loading_{len(numbers)}_{numbers[0]:x}.elf", numbers, BOUND_0 + b"\x11")


def traces():
    """A simulator that always writes one trace, in which what SHOWN tells of is on the path."""
    lines = [f"{cycle}" for cycle in range(1, 17)]
    lines[9], lines[14], lines[15] = "10 ren:6:00010018", "15 ld:6:0001fff0:m", "16 ret:6"
    path = support.file_of("traces_of_6", ("#!/bin/sh\ncat << END\n" + "\n".join(lines) + "\nend exit 0 retired 7 cycles 16\nEND\n").encode())
    os.chmod(path, 0o755)
    return path


def killed():
    """A simulator that is killed in the second cycle."""
    path = support.file_of("killed", b"#!/bin/sh\necho 1\nkill -9 $$\n")
    os.chmod(path, 0o755)
    return path


def program(said, status=0, name="stand_in", head=""):
    """A program that says this, whatever it is asked; it leaves its words in a file beside it."""
    path = support.file_of(name, f"#!/bin/sh\necho \"$@\" >> $0.asked\n{head}\nprintf '{said}'\nexit {status}\n".encode())
    os.chmod(path, 0o755)
    if os.path.exists(f"{path}.asked"):
        os.remove(f"{path}.asked")
    return path


def asked_of(path):
    with open(f"{path}.asked", encoding="utf-8") as file:
        return file.read().splitlines()


class Ranges(unittest.TestCase):
    IMAGE = SimpleNamespace(name="a.elf", symbols=[(0x100, 16, "key"), (0x200, 0, "label"), (0x300, 4, "twice"), (0x400, 4, "twice")])

    def test_words(self):
        for word, found in [("key", (0x100, 16)), ("key+4", (0x104, 12)), ("key+0x8:2", (0x108, 2)), ("key:3", (0x100, 3)),
                            ("label:7", (0x200, 7)), ("label+2:1", (0x202, 1)), ("0x1fff8:1", (0x1fff8, 1)), ("4096:2", (4096, 2)),
                            ("0131064:01", (0x1fff8, 1)), ("0x0001FFF8:1", (0x1fff8, 1)), ("+131064:+1", (0x1fff8, 1)),
                            ("0x+1fff8:1", (0x1fff8, 1)), ("key+08:2", (0x108, 2)), ("0" * 5000 + "4294967295:1", (0xffffffff, 1))]:
            self.assertEqual(ranges.named(self.IMAGE, word), found, word)

    def test_refusals(self):
        for word, note in [("kee", "no symbol `kee`"), ("key:17", "has 16 bytes"), ("key+16", "has 16 bytes"), ("key+8:9", "has 16 bytes"),
                           ("label", "doesn't say how many bytes"), ("twice", "at 00000300 and at 00000400"), ("0x100", "how many bytes"),
                           ("key:", "is asked for"), ("key+x", "is asked for"), ("", "is asked for"), ("0x100:0", "how many bytes"),
                           ("0X100:1", "is asked for"), ("0x:1", "is asked for"), ("1_0:1", "is asked for"), ("\u0661:1", "is asked for"),
                           ("4294967296:1", "at most 4294967295"), ("0x100:4294967296", "at most 4294967295"),
                           ("9" * 5000 + ":1", "at most 4294967295"), ("key+" + "9" * 5000, "at most 4294967295")]:
            with self.subTest(word=word), self.assertRaises(Fault) as told:
                ranges.named(self.IMAGE, word)
            self.assertIn(note, str(told.exception))

    def test_of_an_image(self):
        """Of several words an image takes those whose symbols it has. A word that names one of its symbols wrongly is refused, not left out."""
        self.assertEqual(certifying.secrets_of(self.IMAGE, ["key", "kee", "label:2"]), ["0x00000100:16", "0x00000200:2"])
        for words, note in [(["kee"], "no symbol `kee`"), (["key", "key:17"], "has 16 bytes"), (["key", "twice"], "at 00000300 and at 00000400"),
                            (["key", "label"], "doesn't say how many bytes")]:
            with self.subTest(words=words), self.assertRaises(Fault) as told:
                certifying.secrets_of(self.IMAGE, words)
            self.assertIn(note, str(told.exception))

    def test_of_addresses(self):
        self.assertEqual(ranges.of_addresses([5, 6, 7, 9]), [Range(5, 3), Range(9, 1)])

    def test_many(self):
        """No more ranges than a command line takes, and none of the bytes left out."""
        addresses = [address for start in range(0, 4000, 20) for address in (start, start + 2)]
        found = ranges.of_addresses(addresses)
        self.assertLessEqual(len(found), ranges.MOST_RANGES)
        self.assertEqual(found[0], Range(0, 3))
        self.assertLessEqual(set(addresses), {address for each in found for address in each.addresses})


class Answers(unittest.TestCase):
    def test_texts(self):
        self.assertEqual(secrecy.read_answer(SHOWN).shown, (15, "access", 6, 0x10018))
        for text, is_cut in [(HIDDEN, False), (CUT, True)]:
            answer = secrecy.read_answer(text)
            self.assertEqual((answer.shown, answer.is_cut), (None, is_cut))
        for text in ("", "hidden\n", "shown 15 access 6\n", HIDDEN + "more\n", "shown 15 power 6 00010018\n", "end exit 0 retired 5 cycles 21\n"):
            with self.subTest(text=text), self.assertRaises(Fault):
                secrecy.read_answer(text)


class OneImage(unittest.TestCase):
    """The verdict on one image, by stand-ins for the program."""

    def told(self, said, status, *words, description=CORE):
        self.program = program(said.replace("\n", "\\n"), status)
        self.image = loading()
        return command("verdict", description, self.image, "--secret", WORD, *words, "--secrets-program", self.program, "--program", traces())

    def test_certified(self):
        told = self.told(HIDDEN, 0, "--cycles", "500")
        self.assertEqual((told.returncode, told.stderr), (0, ""))
        self.assertRegex(told.stdout, r"(?m)^secret        1 byte, 0001fff8\b.*$")
        self.assertIn("\npath          loads 1 of these 1 bytes\n", told.stdout)
        self.assertRegex(told.stdout, r"(?m)^run           end exit 0 retired 5 cycles 21\nshown         nothing ")
        self.assertRegex(told.stdout, r"\nverdict       certified: for every value of these bytes ")
        self.assertEqual(asked_of(self.program), [f"{CORE} {self.image} --secret {WORD} --cycles 500"])

    def test_cut(self):
        """A run that the budget ended has a status of its own, and the verdict says how far it was looked at."""
        told = self.told(CUT, 3)
        self.assertEqual((told.returncode, told.stderr), (3, ""))
        self.assertIn("\nverdict       certified in the first 12 cycles, of a run that goes on: ", told.stdout)

    def test_other_ends(self):
        """A run that didn't exit with 0, or whose path doesn't load the secret as it was, is never told as `certified` alone."""
        for end, word, status in [("exit 1", "certified, exit 1", 11), ("trap 5 00010004", "certified, to a trap in cycle 21", 12)]:
            told = self.told(f"hidden\nend {end} retired 5 cycles 21\n", 0)
            self.assertEqual((told.returncode, told.stderr), (status, ""))
            self.assertIn(f"\nverdict       {word}: for every value ", told.stdout)
        for numbers, said, word, status, line in [
                (STORES, HIDDEN, "vacuous", 13, "loads 0 of these 1 bytes; 1 is written over before"),
                (EXITS, HIDDEN, "vacuous", 13, "loads 0 of these 1 bytes"),
                (EXITS, CUT, "vacuous in the first 12 cycles, of a run that goes on", 3, "loads 0 of these 1 bytes"),
                ((LOADS, *STORES), HIDDEN, "certified", 0, "loads 1 of these 1 bytes")]:
            self.program = program(said.replace("\n", "\\n"), 0)
            told = command("verdict", CORE, loading(*numbers), "--secret", WORD, "--secrets-program", self.program)
            self.assertEqual((told.returncode, told.stderr), (status, ""))
            self.assertIn(f"\nverdict       {word}: ", told.stdout)
            self.assertIn(f"\npath          {line}\n", told.stdout)

    def test_exposed(self):
        told = self.told(SHOWN, 1)
        self.assertEqual((told.returncode, told.stderr), (1, ""))
        self.assertRegex(told.stdout, r"\nshown         00010018\b.*: its address, in cycle 15, entry 6\n +on the path: the instruction retires\n")
        self.assertIn("\nverdict       exposed: ", told.stdout)

    def test_numbers(self):
        """A number is read as the program reads it, with zeros before its digits."""
        self.told(HIDDEN, 0)
        told = command("verdict", CORE, self.image, "--secret", f"0{SECRET}:01", "--secrets-program", self.program)
        self.assertEqual((told.returncode, told.stderr), (0, ""))
        self.assertIn(f"--secret {WORD} ", asked_of(self.program)[-1])

    def test_endless(self):
        """A file without end is read no further than a description may go."""
        told = self.told(HIDDEN, 0, description="/dev/full")
        self.assertEqual((told.returncode, told.stdout), (2, ""))
        self.assertEqual(told.stderr, "wadrelwy verdict: /dev/full: more than 65536 bytes\n")

    def test_full(self):
        """What can't be written is a refusal of one line."""
        said = program(HIDDEN.replace("\n", "\\n"))
        words = CORE, support.example("bounds_check.elf"), "--secret", WORD, "--secrets-program", said
        with open("/dev/full", "w", encoding="ascii") as full:
            told = support.answer(subprocess.run([sys.executable, support.TOOL, "verdict", *words], stdout=full, stderr=subprocess.PIPE, text=True,
                                                 check=False))
        self.assertEqual(told.returncode, 7)
        self.assertRegex(told.stderr, r"\A[^\n]*verdict: [^\n]*\n\Z")

    def test_refusals(self):
        for status, said, note in [(2, "", "status 2, secret 0 code"), (0, "equal\\n", "doesn't answer as stt_secrets does")]:
            refusing = program(said, status, head="echo 'secret 0 code' >&2" if status else "")
            told = command("verdict", CORE, support.example("bounds_check.elf"), "--secret", WORD, "--secrets-program", refusing)
            self.assertEqual((told.returncode, told.stdout), (2, ""))
            self.assertIn(note, told.stderr)
        image = support.example("bounds_check.elf")
        for words, note in [((image, "--secret", WORD, "--secrets-program", "/nowhere"), "no program stt_secrets"),
                            ((image,), "two images are asked for, or one with --secret"),
                            ((image, image, "--secret", WORD), "two images are asked for, or one with --secret"),
                            ((image, "--secret", "kee", "--secrets-program", refusing), "no symbol `kee`")]:
            told = command("verdict", CORE, *words)
            self.assertEqual((told.returncode, told.stdout), (2, ""))
            self.assertIn(note, told.stderr)


# a branch of serial 3, entries behind it, and a load that passes a store
LINES = """1 fet:00010000
2 ren:2:00010000 ren:3:00010004 ren:4:00010020
3 ren:5:00010024 alu:2
4 ld:5:0001f000:m done:3
5 RES
6 CLR
7 ret:2 ret:3 ret:4 ret:5
end exit 0 retired 6 cycles 7
"""


class Fates(unittest.TestCase):
    """On the path or on a wrong one, and what led there."""

    def fate(self, serial=5, cycle=4, pc=0x10024, **lines):
        text = LINES
        for name in ("RES", "CLR"):
            text = text.replace(name, lines.get(name, "alu:4"))
        return wrong_path.Scan(serial, cycle, pc).fate(text.splitlines(keepends=True))

    def test_kinds(self):
        self.assertEqual(self.fate(), ("path", None, None))
        self.assertEqual(self.fate(RES="res:3:T bp:1:2 sq:7"), ("mispredicted", 0x10004, 0x10020))
        self.assertEqual(self.fate(serial=3, cycle=5, pc=0x10004, RES="res:3:T bp:1:2 sq:7"), ("path", None, None))
        self.assertEqual(self.fate(CLR="clr:2 vio:4 dp:1:1 sq:2"), ("passed", 0x10020, 0x10000))
        self.assertEqual(self.fate(CLR="clr:2 vio:5 dp:1:1 sq:1"), ("passed", 0x10024, 0x10000))
        self.assertEqual(self.fate(RES="res:3:T bp:1:2", CLR="res:5:T bp:1:2 sq:7"), ("path", None, None))
        self.assertEqual(self.fate(serial=4, cycle=4, pc=0x10020, CLR="clr:2 vio:5 dp:1:1 sq:1"), ("path", None, None))

    def test_ends(self):
        for end, kind in [("trap 5 00010004", "trapped"), ("budget", "untold")]:
            lines = LINES.splitlines(keepends=True)[:4] + [f"end {end} retired 2 cycles 4\n"]
            self.assertEqual(wrong_path.Scan(5, 4, 0x10024).fate(lines).kind, kind)
        with self.assertRaises(Fault):
            self.fate(pc=0x10028)

    def test_a_trace_that_was_cut(self):
        """Where it stops without its last line it tells nothing, nor does a line without its end; so there is no verdict. Nor is one by a simulator
        of which nothing is proved."""
        lines = LINES.splitlines(keepends=True)
        for cut in ([], lines[:3], lines[:6], [*lines[:6], lines[6].rstrip("\n")]):
            with self.subTest(cut=cut), self.assertRaisesRegex(Fault, "the simulator's trace was cut"):
                wrong_path.Scan(5, 4, 0x10024).fate(cut)
        unproved = support.file_of("stt_cli-unproved", b"#!/bin/sh\nexit 0\n")
        os.chmod(unproved, 0o755)
        for simulates, note in ((killed(), "the simulator's trace was cut"), (unproved, "stt_cli-unproved is unproved")):
            words = "--secret", WORD, "--secrets-program", program(SHOWN.replace("\n", "\\n"), 1), "--program", simulates
            told = command("verdict", CORE, loading(), *words)
            self.assertEqual((told.returncode, told.stdout, told.stderr.count("\n")), (2, "", 1))
            self.assertIn(note, told.stderr)

    def test_lines(self):
        """The verdict tells it of the worked trace, and --all lists what takes effect on the secret: there nothing does."""
        image, secrets = support.example("bounds_check.elf"), program(SHOWN.replace("\n", "\\n"), 1)
        text = support.file_of("worked", "".join(TEXT).encode())
        traces = support.file_of("traces", f"#!/bin/sh\ncat {text}\n".encode())
        os.chmod(traces, 0o755)
        words = "--secret", WORD, "--secrets-program", secrets, "--program", traces
        told = command("verdict", CORE, image, *words)
        self.assertEqual((told.returncode, told.stderr), (1, ""))
        self.assertRegex(told.stdout, r"\n              on a wrong path, behind 0001[0-9a-f]{4} b\w+ .*, which was predicted to go on at 0001[0-9a-f]{4}")
        told = command("verdict", CORE, image, *words, "--all")
        self.assertIn("0 instructions, by marks on whole values: a list without a claim", told.stdout)
        told = command("verdict", CORE, loading(), "--secret", WORD, "--secrets-program", secrets, "--program", "/nowhere", "--all")
        self.assertEqual((told.returncode, told.stdout), (2, ""))

    def test_made(self):
        """With --all the verdict tells by which instructions what shows was made of the secret: of the worked trace of a fault's shadow."""
        text = support.file_of("shadow", "".join(support.worked_trace("Fault shadow")).encode())
        traces = support.file_of("traces_of_a_shadow", f"#!/bin/sh\ncat {text}\n".encode())
        os.chmod(traces, 0o755)
        words = "--secret", WORD, "--secrets-program", program("shown 16 access 5 00010014\\n", 1), "--program", traces
        told = command("verdict", CORE, support.example("fault_shadow.elf"), *words, "--all")
        self.assertEqual((told.returncode, told.stderr), (1, ""))
        # where there is no objdump an instruction is told by its kind
        self.assertRegex(told.stdout, r"\nmade          of 0001fff8\b.*, by 3 instructions\n {14}00010008 (lbu|load) .*\n {14}0001000c (slli?|arithmetic) .*\n"
                                      r" {14}00010010 (add|arithmetic) .*\n"
                                      r"list          00010014 (lw|load) .*: its access, 1 time, first in cycle 16, on wrong paths\n")
        made = json.loads(command("verdict", CORE, support.example("fault_shadow.elf"), *words, "--all", "--json").stdout)["made"]
        self.assertEqual((made["byte"], made["instructions"], [each["address"] for each in made["last"]]), ("0001fff8", 3, ["00010008", "0001000c", "00010010"]))
        plain = [command("verdict", CORE, support.example("fault_shadow.elf"), *words, *more).stdout for more in ([], ["--json"])]
        self.assertNotIn("\nmade ", plain[0])
        self.assertIsNone(json.loads(plain[1])["made"])

    def test_cells(self):
        place = "line {:x}".format
        self.assertEqual([wrong_path.short(wrong_path.Fate(*fate), place) for fate in [
            ("path",), ("mispredicted", 16, 20), ("passed", 17, 18), ("untold",)]], [
            ", on the path", ", wrong path behind `line 10`", ", wrong path: `line 11` passed the store `line 12`", ""])


class TwoImages(unittest.TestCase):
    """The word for two images, by what one run says of the bytes that differ."""

    def case(self, said, unequal=None, premise=False, model="spectre"):
        images = [gadget("bounds_check", BOUND_0 + bytes([secret])) for secret in (0x11, 0x22)]
        machine = read_description(CORE)._replace(model=model)
        case = judge.judged("core.toml", machine, *images, simulator.Pair(TEXT, TEXT, premise, unequal))
        return case._replace(asked=secrecy.Asked(secrecy.read_answer(said)))

    def test_words(self):
        for said, unequal, premise, model, word in [
                (HIDDEN, None, False, "spectre", "certified"), (SHOWN, None, False, "spectre", "exposed"),
                (HIDDEN, None, True, "off", "certified"), (SHOWN, None, True, "off", "exposed"),
                (HIDDEN, None, True, "spectre", "hidden"), (SHOWN, None, True, "spectre", "hidden"),
                (SHOWN, 15, False, "spectre", "differs"), (SHOWN, 15, True, "off", "leaks"), (SHOWN, 15, True, "spectre", "refuted"),
                (HIDDEN, 15, False, "spectre", "refuted"), (HIDDEN, 15, True, "off", "refuted")]:
            with self.subTest(said=said, unequal=unequal, premise=premise, model=model):
                self.assertEqual(self.case(said, unequal, premise, model).word(), word)

    def test_lines(self):
        told = list(report.lines(self.case(HIDDEN)))
        self.assertIn("one run       shows nothing that may depend on the bytes that differ", told)
        told = "\n".join(report.lines(self.case(SHOWN)))
        self.assertRegex(told, r"\none run       shows what may depend on the bytes that differ: 00010018 .*: its address, in cycle 15, entry 6\n")

    def test_not_asked(self):
        """Where there is no program, two codes or no differing byte, and where it refuses, the verdict is as without it."""
        one, two = (gadget("bounds_check", BOUND_0 + bytes([secret])) for secret in (0x11, 0x22))
        found = premises.premises(one, two, read_description(CORE), 5)
        refuses = program("", 2, head="echo 'secret 0 outside' >&2")
        for path, given, why in [(None, found, "no program stt_secrets"), (refuses, found._replace(code=[0x10000]), "two codes"),
                                 (refuses, found._replace(memory=[]), "no byte differs"), (refuses, found, "secret 0 outside")]:
            asked = secrecy.asked_of_pair(path, CORE, one, given, 100)
            self.assertIsNone(asked.answer)
            self.assertIn(why, asked.why)
        answers = secrecy.asked_of_pair(program(HIDDEN.replace("\n", "\\n")), CORE, one, found, 100)
        self.assertEqual(answers.answer.end.cycles, 21)


# what answers for a description's model, and leaves a mark for each run
TABLE = """#!/bin/sh
[ "$6" = 1 ] || echo "$2 $4" >> RAN
grep -q '^model = "off"' $1 && echo "shown 15 access 6 00010018" && exit 1
grep -q '^rob = 24' $1 && printf 'hidden\\nend budget retired 3 cycles 12\\n' && exit 3
printf 'hidden\\nend exit 0 retired 5 cycles 21\\n'
"""
# another value of the secret gives another trace under `off`, and under `futuristic`, where none may
PAIRS = """#!/bin/sh
cmp -s $3 $4 && { printf 'premise no\\nequal\\nretired 5 cycles 21\\n'; exit 0; }
grep -q '^model = "off"' $2 && { printf 'premise no\\nunequal 15\\nretired 5 cycles 21\\n'; exit 1; }
grep -q '^model = "MODEL"' $2 && { printf 'premise no\\nunequal 16\\nretired 5 cycles 21\\n'; exit 1; }
printf 'premise no\\nequal\\nretired 5 cycles 21\\n'
"""


class Table(unittest.TestCase):
    def setUp(self):
        kept = tempfile.TemporaryDirectory()
        self.addCleanup(kept.cleanup)
        self.folder, self.ran = os.path.join(kept.name, "table"), os.path.join(kept.name, "ran")
        self.program = self.stand_in("table_stand_in", TABLE.replace("RAN", self.ran))

    def stand_in(self, name, text):
        path = support.file_of(name, text if isinstance(text, bytes) else text.encode())
        os.chmod(path, 0o755)
        return path

    def certify(self, *words):
        return command("certify", self.folder, *words, "--secrets-program", self.program, "--program", traces())

    def words(self, *more):
        return "--programs", loading(), "--secret", WORD, "--descriptions", CORE, *more

    def test_together(self):
        """Builds of a program whose cells are the same are one row where it is asked for; another one has its own."""
        images = [os.path.join(os.path.dirname(self.folder), build, "same.elf") for build in ("gcc-O1", "gcc-O2", "clang-O1")]
        for image, numbers in zip(images, (LOADS, LOADS, STORES[0])):
            os.makedirs(os.path.dirname(image))
            shutil.copy(loading(numbers, *EXITS), image)
        words = "--programs", *images, "--secret", WORD, "--descriptions", CORE
        for more, rows in [((), [["gcc-O1", "certified"], ["gcc-O2", "certified"], ["clang-O1", "vacuous"]]),
                           (("--together",), [["gcc-O1, gcc-O2", "certified"], ["clang-O1", "vacuous"]])]:
            told = self.certify(*words, *more)
            found = [line.split(" | ") for line in told.stdout.splitlines() if line.startswith("| `same`")]
            self.assertEqual([[row[1], re.split("[ ;]", row[3])[0]] for row in found], rows)

    def test_folders_of_one_name(self):
        """Images in folders of one name are told apart by the folders above these, and each has its row."""
        images = [os.path.join(os.path.dirname(self.folder), above, "gcc-O2", "same.elf") for above in ("old", "new")]
        for image, number in zip(images, (LOADS, STORES[0])):
            os.makedirs(os.path.dirname(image))
            shutil.copy(loading(number, *EXITS), image)
        told = self.certify("--programs", *images, "--secret", WORD, "--descriptions", CORE)
        self.assertEqual((told.returncode, told.stderr), (13, ""))
        found = [line.split(" | ") for line in told.stdout.splitlines() if line.startswith("| `same`")]
        self.assertEqual([[row[1], re.split("[ ;]", row[3])[0]] for row in found], [["old/gcc-O2", "certified"], ["new/gcc-O2", "vacuous"]])

    BUILD = os.path.basename(os.path.dirname(loading()))
    NAME = os.path.splitext(os.path.basename(loading()))[0]

    def runs(self):
        with open(self.ran, encoding="utf-8") as file:
            return file.read().splitlines()

    def test_table(self):
        told = self.certify(*self.words("--set", "stt.model=off,spectre"))
        self.assertEqual((told.returncode, told.stderr), (1, ""))
        lines = told.stdout.splitlines()
        self.assertEqual(lines[:4] + lines[5:], [
            "| Program | Build | Secret | `off` | `spectre` |", "|---|---|---|---|---|",
            f"| `{self.NAME}` | {self.BUILD} | 0001fff8, 1 byte | **address**, `00010018`, cycle 15, on the path | certified |", "", "",
            "1 certified, 1 exposed"])
        self.assertRegex(lines[4], r"^By table_stand_in sha256 [0-9a-f]{64}, kit .*, commit \w+.*\.$")
        self.assertEqual(len(set(self.runs())), 1)
        self.assertRegex(self.runs()[0], rf"^{self.folder}/images/{self.NAME}_[0-9a-f]{{16}}\.elf {WORD}$")
        with open(os.path.join(self.folder, "table.csv"), encoding="utf-8") as file:
            rows = list(csv.DictReader(file))
        self.assertEqual([(row["stt.model"], row["verdict"], row["cycles"], row["what"], row["address"]) for row in rows],
                         [("off", "exposed", "15", "address", "00010018"), ("spectre", "certified", "21", "", "")])

    def test_object(self):
        """The table as one object, in a file and on standard output, with what each answer is of."""
        told = self.certify(*self.words("--set", "stt.model=off,spectre", "--json"))
        self.assertEqual((told.returncode, told.stderr), (1, ""))
        with open(os.path.join(self.folder, "table.json"), encoding="utf-8") as file:
            self.assertEqual(file.read(), told.stdout)
        found = json.loads(told.stdout)
        self.assertEqual((found["status"], found["cycles"], found["summary"]), (1, 4294967295, "1 certified, 1 exposed"))
        self.assertRegex(found["made_by"], rf"^table_stand_in sha256 {found['program_sha256']}, ")
        self.assertEqual([(row["stt.model"], row["verdict"], row["status"], row["cycles"], row["address"]) for row in found["rows"]],
                         [("off", "exposed", 1, 15, "00010018"), ("spectre", "certified", 0, 21, "")])
        with open(loading(), "rb") as file:
            self.assertEqual({row["image_sha256"] for row in found["rows"]}, {hashlib.sha256(file.read()).hexdigest()})
        self.assertEqual(len({row["description_sha256"] for row in found["rows"]}), 2)

    def test_goes_on(self):
        """What has been asked isn't asked again, by the folder alone either."""
        self.certify(*self.words("--set", "stt.model=off,spectre"))
        results = os.path.join(self.folder, "results")
        os.remove(os.path.join(results, min(os.listdir(results))))
        again = self.certify()
        self.assertEqual((again.returncode, again.stdout.splitlines()[-1], len(self.runs())), (1, "1 certified, 1 exposed", 3))

    def test_another_budget(self):
        """The folder alone goes on with its own budget, and is refused with another."""
        self.assertEqual(self.certify(*self.words("--cycles", "5000")).returncode, 0)
        told = self.certify("--cycles", "700")
        self.assertEqual((told.returncode, told.stdout, told.stderr.count("\n")), (2, "", 1))
        self.assertIn("was planned with --cycles 5000, and not with 700", told.stderr)
        self.assertEqual((self.certify("--cycles", "5000").returncode, len(self.runs())), (0, 1))

    def test_two_descriptions_of_one_text(self):
        """What they ask for is one run, which is made once, and each has its column."""
        descriptions = [self.stand_in(name, material.read("examples", "core.toml")) for name in ("first.toml", "second.toml")]
        told = self.certify("--programs", loading(), "--secret", WORD, "--descriptions", *descriptions, "--set", "stt.model=off")
        self.assertEqual((told.returncode, told.stderr, len(self.runs())), (1, "", 1))
        cell = "**address**, `00010018`, cycle 15, on the path"
        self.assertEqual(told.stdout.splitlines()[:3], ["| Program | Build | Secret | first, `off` | second, `off` |", "|---|---|---|---|---|",
                                                        f"| `{self.NAME}` | {self.BUILD} | 0001fff8, 1 byte | {cell} | {cell} |"])

    def test_what_became_of_it_is_kept_whole_or_not(self):
        """Of a simulator that was killed nothing is kept; and what is kept and was cut is refused."""
        told = command("certify", self.folder, *self.words("--set", "stt.model=off"), "--secrets-program", self.program, "--program", killed())
        self.assertEqual((told.returncode, told.stdout), (2, ""))
        self.assertIn("the simulator's trace was cut", told.stderr)
        self.assertEqual(glob.glob(f"{self.folder}/fates/*"), [])
        told = self.certify()
        self.assertEqual((told.returncode, told.stderr), (1, ""))
        self.assertIn("cycle 15, on the path |", told.stdout)
        [kept] = glob.glob(f"{self.folder}/fates/*")
        for text in ("", '[15, "acc', "[]", "7"):
            with open(kept, "w", encoding="ascii") as file:
                file.write(text)
            told = self.certify()
            self.assertEqual((told.returncode, told.stdout, told.stderr.count("\n")), (2, "", 1))
            self.assertIn(f"{kept} is of another answer, or was cut", told.stderr)

    def test_statuses(self):
        told = self.certify(*self.words())
        self.assertEqual((told.returncode, told.stdout.splitlines()[-1]), (0, "1 certified, 0 exposed"))
        told = self.certify(*self.words("--set", "core.rob=24"))
        self.assertEqual((told.returncode, told.stdout.splitlines()[-1]), (3, "0 certified, 0 exposed, 1 certified in their first cycles alone"))
        self.assertIn("| certified in the first 12 cycles |", told.stdout)
        for numbers, said, status, cell, counted in [
                ((), "exit 1", 11, "certified, exit 1", "1 certified with another exit value than 0"),
                ((), "trap 5 00010004", 12, "certified, to a trap in cycle 21", "1 to a trap"),
                (STORES, "exit 0", 13, "vacuous; 1 of 1 bytes written over", "1 vacuous"), (EXITS, "exit 0", 13, "vacuous", "1 vacuous")]:
            with self.subTest(cell=cell):
                self.program = self.stand_in("ends", f"#!/bin/sh\nprintf 'hidden\\nend {said} retired 5 cycles 21\\n'\n")
                told = self.certify("--programs", loading(*numbers), "--secret", WORD, "--descriptions", CORE)
                self.assertEqual((told.returncode, told.stdout.splitlines()[-1]), (status, f"0 certified, 0 exposed, {counted}"))
                self.assertIn(f"| {cell} |", told.stdout)

    def test_an_unproved_program_makes_no_table(self):
        """What a program says of which nothing is proved is no certificate: it isn't asked, and nothing is kept."""
        self.program = self.stand_in("stt_secrets-unproved", TABLE.replace("RAN", self.ran))
        told = self.certify(*self.words())
        self.assertEqual((told.returncode, told.stdout, told.stderr.count("\n")), (2, "", 1))
        self.assertIn("stt_secrets-unproved is unproved, and what this command says rests on proofs", told.stderr)
        self.assertFalse(os.path.exists(self.ran) or os.path.exists(self.folder))

    def test_nothing_stale(self):
        """A table is of the files that were asked of, or there is none: image, description, program and the folder's own copies."""
        image, description = self.stand_in("stale.elf", self.bytes(loading())), self.stand_in("stale.toml", material.read("examples", "core.toml"))
        words = "--programs", image, "--secret", WORD, "--descriptions", description
        self.assertEqual(self.certify(*words).returncode, 0)
        for path in (image, description, self.program):
            with self.subTest(path=path):
                kept = self.bytes(path)
                with open(path, "ab") as file:
                    file.write(b"#")
                told = self.certify()
                self.assertEqual((told.returncode, told.stdout), (2, ""))
                self.assertIn(f"{path} isn't what it was", told.stderr)
                self.assertEqual(self.certify("--copies").returncode, 0)
                self.stand_in(os.path.basename(path), kept)
        [copy] = glob.glob(f"{self.folder}/images/*.elf")
        with open(copy, "ab") as file:
            file.write(b"#")
        for more in ((), ("--copies",)):
            told = self.certify(*more)
            self.assertEqual((told.returncode, told.stdout), (2, ""))
            self.assertIn("isn't what was asked of", told.stderr)

    def bytes(self, path):
        with open(path, "rb") as file:
            return file.read()

    def test_a_secret_that_no_image_has(self):
        told = self.certify("--programs", support.example("bounds_check.elf"), "--secret", WORD, "nowhere", "--descriptions", CORE)
        self.assertEqual((told.returncode, told.stdout), (2, ""))
        self.assertIn("no symbol `nowhere`", told.stderr)

    def test_a_refused_description(self):
        self.program = self.stand_in("refuses", "#!/bin/sh\ngrep -q '^rob = 24' $1 && echo 'description K6 core.rob' >&2 && exit 4\n"
                                                "printf 'hidden\\nend exit 0 retired 5 cycles 21\\n'\n")
        told = self.certify(*self.words("--set", "core.rob=16,24"))
        self.assertEqual((told.returncode, told.stdout.splitlines()[-1]), (3, "1 certified, 0 exposed, 1 refused"))
        self.assertIn("| certified | refused K6 |", told.stdout)

    def test_refusals(self):
        for words, note in [((), "no plan"), (("--programs", "a.elf"), "a table has programs and secrets, and descriptions where"),
                            (("--programs", support.example("bounds_check.elf"), "--secret", "kee", "--descriptions", CORE), "no symbol `kee`"),
                            (self.words("--jobs", "0"), "at least 1"), (self.words("--set", "rob"), "KEY=VALUE")]:
            told = self.certify(*words)
            self.assertEqual((told.returncode, told.stdout), (2, ""), words)
            self.assertIn(note if words else "certify.json", told.stderr)

    def test_draw(self):
        """Drawn values hold the answers against the machine: another trace of a certified run is told, and has a status."""
        self.certify(*self.words("--set", "stt.model=off,spectre"))
        told = command("draw", self.folder, "--draws", "3", "--program", self.stand_in("pairs", PAIRS))
        self.assertEqual((told.returncode, told.stderr), (0, ""))
        off, spectre = told.stdout.splitlines()
        self.assertRegex(off, rf"^{self.NAME} {self.BUILD} off: exposed; unequal in cycle 15, with the secrets [0-9a-f]{{2}} and [0-9a-f]{{2}}, pair 1 of those tried$")
        self.assertEqual(spectre, f"{self.NAME} {self.BUILD} spectre: certified; none of 5 values unequal")
        asked = os.path.join(self.folder, "asked")
        logged = PAIRS.replace("\n", f'\nod -An -tx1 $3 $4 | md5sum >> {asked}\n', 1)
        for draws, pairs in [(1, 2), (2, 3), (3, 3), (4, 4)]:
            command("draw", self.folder, "--draws", str(draws), "--only", " spectre", "--program", self.stand_in("logged", logged))
            with open(asked, encoding="ascii") as file:
                self.assertEqual(len(set(file)), pairs, "two values at a time, each once and the image's own to begin with and where one is left")
            os.remove(asked)
        told = command("draw", self.folder, "--draws", "3", "--program", self.stand_in("pairs", PAIRS.replace("MODEL", "spectre")))
        self.assertEqual(told.returncode, 16)
        self.assertIn("traces that are proved equal aren't", told.stderr)

    def test_what_has_no_answer(self):
        """A run of the table that has no answer is told, and has a status: what is held against the machine isn't all of the table."""
        self.certify(*self.words("--set", "stt.model=off,spectre"))
        with open(os.path.join(self.folder, "certify.json"), encoding="utf-8") as file:
            made = json.load(file)
        [gone] = [run["result"] for run in (dict(zip(made["columns"], run)) for run in made["runs"]) if run["values"] == {"stt.model": "spectre"}]
        os.remove(os.path.join(self.folder, gone))
        pairs = self.stand_in("pairs", PAIRS)
        for more in ([], ["--record", f"{self.folder}.csv"]):
            told = command("draw", self.folder, "--draws", "3", *more, "--program", pairs)
            self.assertEqual((told.returncode, told.stderr), (3, ""))
            missing, off = told.stdout.splitlines()
            self.assertEqual(missing, f"{self.NAME} {self.BUILD} spectre: no result; skipped: `wadrelwy certify {self.folder}` goes on")
            self.assertIn(f"{self.NAME} {self.BUILD} off: exposed; unequal in cycle 15", off)
        told = command("draw", self.folder, "--draws", "3", "--except", " spectre", "--program", pairs)
        self.assertEqual((told.returncode, len(told.stdout.splitlines())), (0, 1))

    def test_conservative(self):
        self.certify(*self.words("--set", "stt.model=off,spectre"))
        equal = self.stand_in("equal", "#!/bin/sh\nprintf 'premise no\\nequal\\nretired 5 cycles 21\\n'\n")
        told = command("draw", self.folder, "--draws", "3", "--only", " off", "--program", equal)
        self.assertEqual(told.stdout, f"{self.NAME} {self.BUILD} off: exposed; none of 6 values unequal: what shows may be conservative, or is "
                         "hardly ever met: of the 3 drawn none is, so too few to say how many are; one byte that is compared is met by 1 value in "
                         "256, an address within this memory by 1 in 65536, and --draws N looks further\n")
        told = command("draw", self.folder, "--draws", "256", "--only", " off", "--program", equal)
        self.assertEqual(told.stdout, f"{self.NAME} {self.BUILD} off: exposed; none of 255 values unequal, and there are no others: what shows is "
                                      "conservative\n")
        told = command("draw", self.folder, "--only", "neverthere", "--program", equal)
        self.assertEqual((told.returncode, told.stdout), (2, ""))
        self.assertIn("has no answer of such a name", told.stderr)

    def test_values(self):
        """Such as a drawn one hardly is: an address within memory, in each word, and what a branch compares."""
        own = bytes(range(1, 9))
        found = drawing.telling(own, 0x10000, 0x100000, 1)
        self.assertEqual(found[:2], [bytes(8), b"\xff" * 8])
        words = [[int.from_bytes(value[at:at + 4], "little") for at in (0, 4)] for value in found[2:]]
        self.assertTrue(all(0x10000 <= word < 0x110000 and word % 4 == 0 for pair in words[:4] for word in pair))
        alone = [tuple(0x10000 <= word < 0x110000 for word in pair) for pair in words[4:]]
        self.assertEqual(alone, [(True, False)] * 2 + [(False, True)] * 2)
        image = material.loaded("branches.elf", [material.segment(material.CODE, material.words(
            0x00700293, 0x00814303, 0x00530463, *EXITS), True), material.segment(material.DATA, BOUND_0 + b"\x11")])
        self.assertEqual(drawing.operands_at(image, material.CODE + 8, 100), [0x11, 7])
        self.assertIn(b"\x01\x07" + own[2:], drawing.of_operands(own, [7]))
        self.assertEqual(drawing.with_part(b"abc", 2, b"wxyz"), b"abw")

    def test_one_address_in_many(self):
        """A pair is found where only a value that is an address within memory has another trace."""
        self.program = self.stand_in("shows", "#!/bin/sh\nprintf 'shown 15 access 6 00010018\\n'\nexit 1\n")
        image = material.image_file("word.elf", (LOADS, *EXITS), BOUND_0 + b"\1\2\3\xf4")
        self.certify("--programs", image, "--secret", f"0x{SECRET:08x}:4", "--descriptions", CORE)
        within = self.stand_in("within", "#!/bin/sh\n[ $(tail -c 2 $4 | od -An -tx1 | tr -d ' ') = 0100 ] && printf 'premise no\\nunequal 15\\n"
                                         "retired 5 cycles 21\\n' && exit 1\nprintf 'premise no\\nequal\\nretired 5 cycles 21\\n'\n")
        told = command("draw", self.folder, "--program", within)
        self.assertRegex(told.stdout, r"exposed; unequal in cycle 15, with the secrets 010203f4 and [0-9a-f]{4}0100, pair 3 of those tried")

    def test_what_can_not_be_patched(self):
        """A secret without bytes in the file is skipped, and the others are tried."""
        flags, address, data, _ = material.segment(material.DATA, BOUND_0)
        image = support.file_of("bss.elf", support.elf([material.segment(material.CODE, material.words(LOADS, *EXITS), True),
                                                        (flags, address, data, 16)]))
        self.certify("--programs", image, loading(), "--secret", WORD, "--descriptions", CORE)
        told = command("draw", self.folder, "--draws", "3", "--program", self.stand_in("pairs", PAIRS))
        lines = sorted(told.stdout.splitlines())
        self.assertEqual((told.returncode, told.stderr, len(lines)), (3, "", 2))
        self.assertRegex(lines[0], r"^bss .*; skipped: .*the file has no byte for 0001fff8")
        self.assertIn("none of 5 values unequal", lines[1])


class Builds(unittest.TestCase):
    """What `certify --build` asks of is built anew: also where only a header was edited, of which the Makefile doesn't know."""

    MAKEFILE = """$(BUILD)/gcc-O2/%.elf: %.c
\t@mkdir -p $(@D)
\t@sed -e '/include/r mine.h' $< > $@
"""

    @unittest.skipIf([name for name in certifying.NEEDS["gcc"] if shutil.which(name) is None], "no make or gcc for RISC-V")
    def test_headers(self):
        with tempfile.TemporaryDirectory() as folder:
            def write(name, text):
                with open(os.path.join(folder, name), "w", encoding="utf-8") as file:
                    file.write(text)
            write("Makefile", self.MAKEFILE)
            write("st.c", '#include "mine.h"\n')
            for text in ("first", "second"):
                write("mine.h", text)
                [image] = certifying.built(folder, os.path.join(folder, "out"), ["gcc"], ["2"], "", 1)
                with open(image, encoding="utf-8") as file:
                    self.assertIn(text, file.read())

    def test_no_compiler(self):
        """Where none is there nothing is made, not even what the Makefile makes without a name."""
        with tempfile.TemporaryDirectory() as folder:
            with open(os.path.join(folder, "st.c"), "w", encoding="ascii") as file:
                file.write("")
            with mock.patch.object(certifying, "is_there", return_value=False), mock.patch.object(subprocess, "run") as ran:
                with self.assertRaisesRegex(Fault, "can't be built: of gcc and clang none is there"):
                    certifying.built(folder, os.path.join(folder, "out"), ["gcc", "clang"], ["2"], "", 1)
            ran.assert_not_called()


@needs_secrets
class Program(unittest.TestCase):
    """What the built program says; cycles are those of docs/traces.md and of the facts that `runs_are_judged` has evaluated."""

    def test_gadgets(self):
        """The address behind a bounds check shows in cycle 15 without protection, and under a model that protects it doesn't; a store's
        tainted address on a wrong path shows in cycle 14, although it is hidden."""
        for name, description, status, shown in [
                ("bounds_check", CORE, 13, None), ("bounds_check", UNPROTECTED, 1, r"00010018 .*: its address, in cycle 15, "),
                ("tainted_store", CORE, 1, r"its address, in cycle 14, ")]:
            with self.subTest(name=name, description=description):
                told = command("verdict", description, support.example(f"{name}.elf"), "--secret", WORD)
                self.assertEqual((told.returncode, told.stderr), (status, ""))
                self.assertRegex(told.stdout, rf"\nshown         (?:{shown or 'nothing '})" if shown is None else rf"\nshown         .*{shown}")

    def test_budget(self):
        told = command("verdict", CORE, support.example("bounds_check.elf"), "--secret", WORD, "--cycles", "12")
        self.assertEqual(told.returncode, 3)
        self.assertIn("\nverdict       vacuous in the first 12 cycles, of a run that goes on: ", told.stdout)

    def test_refusals(self):
        image = support.example("bounds_check.elf")
        for word, note in [("0x10000:4", "secret 0 code"), ("0x1ffff:2", "secret 0 outside"), ("0xffff:1", "secret 0 outside")]:
            told = command("verdict", CORE, image, "--secret", word)
            self.assertEqual((told.returncode, told.stdout), (2, ""))
            self.assertIn(f"status 2, {note}", told.stderr)

    def test_rows_of_the_page(self):
        """docs/secrets.md, "The ciphers of examples/crypto", has the rows of the compares by gcc as the command writes them."""
        version = subprocess.run([GCC, "-dumpversion"], capture_output=True, text=True, check=False).stdout if shutil.which(GCC) else ""
        if not version.startswith("12.2") or shutil.which("make") is None:
            self.skipTest("no gcc 12.2 for RISC-V, or no make")
        with tempfile.TemporaryDirectory() as folder:
            told = command("certify", folder, "--build", support.example("crypto"), "--compilers", "gcc", "--only", "compare", "--secret", "secret",
                           "--descriptions", support.example("large_passing.toml"), "--defences")
        self.assertEqual((told.returncode, told.stderr), (1, ""))
        rows = told.stdout.splitlines()[:-4]
        self.assertEqual(len(rows), 2 + 4)
        if not support.NO_PROGRAM:
            shown = "".join(rows[4:]).count("**branch**")
            self.assertEqual("".join(rows).count(", on the path |"), shown)
        page = material.read("docs", "secrets.md").splitlines()
        self.assertEqual([row for row in rows[:1] + rows[2:] if row not in page], [])

    @material.needs_program
    def test_conservative(self):
        """Each program of docs/secrets.md, "What stays conservative", is exposed, and some values of its secret have the trace of its own."""
        if shutil.which(GCC) is None or shutil.which("make") is None:
            self.skipTest("no gcc for RISC-V, or no make")
        listed = re.findall(r"(?m)^\| `(\w+)` \| `.*\| (an address|where a branch goes|the time of a division) \|", material.read("docs", "secrets.md"))
        names = {"an address": "address", "where a branch goes": "branch", "the time of a division": "time"}
        with tempfile.TemporaryDirectory() as folder:
            subprocess.run(["make", "-s", "-C", support.example("secrets"), f"BUILD={folder}/build"], check=True, capture_output=True)
            images = sorted(glob.glob(f"{folder}/build/*.elf"))
            told = command("certify", f"{folder}/table", "--programs", *images, "--secret", "secret", "--descriptions",
                           support.example("large_passing.toml"))
            found = re.findall(r"(?m)^\| `(\w+)` \| build \| secret, 1 byte \| \*\*(\w+)\*\*, ", told.stdout)
            self.assertEqual(sorted(found), sorted((name, names[what]) for name, what in listed))
            self.assertEqual(len(found), 8)
            drawn = command("draw", f"{folder}/table", "--draws", "5").stdout.splitlines()
            self.assertEqual([line for line in drawn if "unequal: what shows may be conservative, or is hardly ever met" not in line], [])
            self.assertEqual(len(drawn), 8)

    @material.needs_program
    def test_two_images(self):
        """Both load the secret, and the traces of these two are equal: proved for all where it is only added, and not where it decides a
        branch, though that goes one way."""
        for use, word in [(DOUBLES, "certified"), (BRANCHES, "exposed")]:
            images = [material.image_file(f"uses_{word}_{secret}.elf", (LOADS, use, *EXITS), BOUND_0 + bytes([secret])) for secret in (1, 2)]
            told = command("verdict", CORE, *images)
            self.assertEqual((told.returncode, told.stderr), (report.STATUS[word], ""))
            self.assertIn("premises      not met\n", told.stdout)
            without = command("verdict", CORE, *images, "--secrets-program", "/nowhere")
            self.assertEqual(without.returncode, report.STATUS["same"])
            self.assertIn("one run       not asked about the bytes that differ: no program stt_secrets\n", without.stdout)


if __name__ == "__main__":
    unittest.main()
