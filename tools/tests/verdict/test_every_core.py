"""One run of the instruction set for every core that delays (docs/secrets.md, "Three promises"): answers, verdicts and tables by stand-ins, and
what the built program says of small images, where it knows the question."""
import csv
import glob
import json
import os
import subprocess
import tempfile
import unittest

import material
import test_secrets
from material import BOUND_0, CORE, SECRET, command, support
from test_secrets import EXITS, LOADS, PROGRAM, STORES, WORD, asked_of, loading, program
from wadrelwy import statuses
from wadrelwy.verdict import answered, secrecy
from wadrelwy.verdict.touched import Touched
from wadrelwy.view import Fault

HIDDEN, CUT, TRAPPED = "hidden\nend exit 0 retired 4\n", "hidden\nend budget retired 3\n", "hidden\nend trap 5 00010004 retired 1\n"
SHOWN = "shown 2 access 00010004\n"
EVERY, EVERY_PUBLISHED = answered.EVERY_CORE, answered.EVERY_CORE_PUBLISHED
# the words that the program takes: one name with steps, or two with cycles, and nothing of the one in the other
TAKES = """#!/bin/sh
echo "$@" >> $0.asked
names=0 cycles= steps= desc=
while [ $# -gt 0 ]; do
  case $1 in
    --secret | --public-stream) shift ;;
    --cycles) cycles=$2; shift ;;
    --steps) steps=$2; shift ;;
    --desc) desc=$2; shift ;;
    *) names=$((names + 1)) ;;
  esac
  shift
done
case $names:${cycles:+cycles}:${steps:+steps}:${desc:+desc} in
  2:cycles::) printf 'hidden\\nend exit 0 retired 4 cycles 21\\n' ;;
  1::steps: | 1::steps:desc) [ "$steps" = 1 ] && { printf 'hidden\\nend budget retired 1\\n'; exit 3; }; PATH_SAYS ;;
  *) echo words >&2; exit 2 ;;
esac
"""


def knows_both(says, name="knows_both"):
    """A stand-in for the program, which says this of a run of the instruction set."""
    path = support.file_of(name, TAKES.replace("PATH_SAYS", says).encode())
    os.chmod(path, 0o755)
    if os.path.exists(f"{path}.asked"):
        os.remove(f"{path}.asked")
    return path


def prints(said, status=0):
    return f"printf '{said}'; exit {status}".replace("\n", "\\n")


class Answers(unittest.TestCase):
    def test_texts(self):
        self.assertEqual(secrecy.read_path_answer(SHOWN).shown, (2, "access", 0x10004))
        for text, how, retired, is_cut in [(HIDDEN, "exit 0", 4, False), (CUT, "budget", 3, True), (TRAPPED, "trap 5 00010004", 1, False)]:
            answer = secrecy.read_path_answer(text)
            self.assertEqual((answer.shown, answer.end.how, answer.end.retired, answer.is_cut, answer.of_path), (None, how, retired, is_cut, True))
        published = secrecy.read_path_answer("hidden\npublished 4\nend exit 0 retired 9\n", (2,))
        self.assertEqual((published.published, published.end.retired), (4, 9))

    def test_other_texts(self):
        """What is said of a core is no answer on a run of the instruction set, and the other way round."""
        for text, streams in [("", ()), ("hidden\n", ()), ("hidden\nend exit 0 retired 5 cycles 21\n", ()), ("shown 15 access 6 00010018\n", ()),
                              (HIDDEN, (2,)), ("hidden\npublished 4\nend exit 0 retired 9\n", ()), (HIDDEN + "more\n", ()),
                              ("shown 2 power 00010004\n", ())]:
            with self.subTest(text=text), self.assertRaises(Fault):
                secrecy.read_path_answer(text, streams)
        for text in (HIDDEN, CUT, TRAPPED, SHOWN):
            with self.subTest(text=text), self.assertRaises(Fault):
                secrecy.read_answer(text)

    def test_words(self):
        """Each word with its status: an end by an exit alone claims something of cores."""
        loaded, none = Touched(1, 1, 0), Touched(1, 0, 1)
        for text, streams, found, word, status in [
                (HIDDEN, (), loaded, EVERY, 15), (HIDDEN.replace("exit 0", "exit 7"), (), loaded, f"{EVERY}, exit 7", 11),
                (CUT, (), loaded, "nothing shows in the first 3 steps", 3), (TRAPPED, (), loaded, "nothing shows, to a trap in step 2", 12),
                (HIDDEN, (), none, "vacuous", 13), (TRAPPED, (), none, "vacuous, to a trap in step 2", 12),
                ("hidden\npublished 4\nend exit 0 retired 9\n", (2,), loaded, EVERY_PUBLISHED, 10),
                ("hidden\npublished 4\nend budget retired 1\n", (2,), loaded, "nothing shows in the first 1 step", 3), (SHOWN, (), loaded, "exposed", 1)]:
            answer = secrecy.read_path_answer(text, streams)
            self.assertEqual((answered.word(answer, found), answered.status(answer, found)), (word, status), text)
            self.assertEqual("proved" in answered.meaning(answer, found).replace("nothing is proved", ""), "exit" in text, text)

    def test_worst(self):
        """A table of cores and of every core that is certified in all of its cells has status 0; 15 says that no core was asked of."""
        self.assertEqual(statuses.worst([15, 15]), 15)
        self.assertEqual(statuses.worst([15, 0]), 0)
        self.assertEqual(statuses.worst([15, 10]), 10)
        self.assertEqual(statuses.worst([]), 0)


class OneImage(unittest.TestCase):
    def told(self, says, *words, numbers=()):
        self.program, self.image = knows_both(says), loading(*numbers)
        return command("verdict", self.image, "--secret", WORD, *words, "--secrets-program", self.program)

    def test_certified(self):
        told = self.told(prints(HIDDEN), "--desc", CORE, "--steps", "500")
        self.assertEqual((told.returncode, told.stderr), (15, ""))
        self.assertIn(f"cores         all that delay, memory 00010000 to 0001ffff, as {CORE} has it\n", told.stdout)
        self.assertIn("\npath          loads 1 of these 1 bytes\nrun           end exit 0 retired 4\nshown         nothing ", told.stdout)
        self.assertRegex(told.stdout, rf"\nverdict       {EVERY}: every value of these bytes gives one trace on each core .*, and that is proved\n\Z")
        self.assertEqual(asked_of(self.program), [f"{self.image} --secret {WORD} --desc {CORE} --steps 500"])

    def test_memory(self):
        """Without a description memory is that of isa, where x2 is another, so that this image loads none of the bytes."""
        told = self.told(prints(HIDDEN))
        self.assertEqual((told.returncode, told.stderr), (13, ""))
        self.assertIn("cores         all that delay, memory 00010000 to 0010ffff, as isa has it without a description\n", told.stdout)
        self.assertEqual(asked_of(self.program), [f"{self.image} --secret {WORD} --steps 10000000"])

    def test_other_ends(self):
        for said, status, numbers, word, claim in [
                (CUT, 3, (), "nothing shows in the first 3 steps, of a run that goes on", "of cores nothing is claimed"),
                (TRAPPED, 0, (), "nothing shows, to a trap in step 2", "of cores nothing is claimed"),
                (HIDDEN, 0, STORES, "vacuous", "the path loads none of them"), (HIDDEN.replace("t 0", "t 3"), 0, (), f"{EVERY}, exit 3", "is proved")]:
            told = self.told(prints(said, status), "--desc", CORE, numbers=numbers)
            self.assertRegex(told.stdout, rf"\nverdict       {word}: .*{claim}")
            self.assertIn(told.returncode, (3, 11, 12, 13))
        told = self.told(prints("hidden\npublished 0\nend exit 0 retired 4\n"), "--desc", CORE, "--public-stream", "2")
        self.assertEqual((told.returncode, told.stderr), (10, ""))
        self.assertIn(f"\nverdict       {EVERY_PUBLISHED}: every value of these bytes with which as many steps ", told.stdout)
        self.assertIn(" --public-stream 2 ", asked_of(self.program)[0])

    def test_exposed(self):
        told = self.told(prints(SHOWN, 1), "--desc", CORE)
        self.assertEqual((told.returncode, told.stderr), (1, ""))
        self.assertRegex(told.stdout, r"\nrun           looked at up to step 2, in which something shows\nshown         00010004 .*: its address, in step 2\n")
        self.assertRegex(told.stdout, r"\nverdict       exposed: the path shows something .*, so nothing is proved, of any core")

    def test_object(self):
        told = json.loads(self.told(prints(SHOWN, 1), "--desc", CORE, "--json").stdout)
        self.assertEqual((told["verdict"], told["status"], told["steps"], told["shown"]["step"], told["shown"]["address"]),
                         ("exposed", 1, 10000000, 2, "00010004"))
        told = json.loads(self.told(prints(HIDDEN), "--json", "--set", f"{WORD}=22").stdout)
        self.assertEqual((told["memory"], told["run"]), ({"base": "00010000", "bytes": 1 << 20, "misaligned": False}, {"end": "exit 0", "retired": 4}))
        self.assertEqual(told["image"]["set"], {WORD: "22"})
        self.assertFalse({"description", "cycles"} & set(told))

    def test_refusals(self):
        image = loading()
        for words, note in [((image, "--secret", WORD, "--cycles", "5"), "--cycles is asked of a core, by a description"),
                            ((image, "--secret", WORD, "--all"), "--all is asked of a core"),
                            ((image, "--secret", WORD, "--program", CORE), "--program is asked of a core"),
                            ((image, "--secret", WORD, "--value", "22"), "--value is asked of a core"),
                            ((image, "--secret", WORD, "--set", "core.rob=8"), "--set core.rob: there is no description"),
                            ((CORE, image, "--secret", WORD, "--steps", "5"), "--steps is asked of an image without a description"),
                            ((CORE, image, "--secret", WORD, "--desc", CORE), "--desc is asked of an image without a description"),
                            ((CORE, image, image, "--steps", "5"), "--steps is asked of"), ((image,), "one with --secret"),
                            ((CORE, image, image, image), "a description and two images are asked for")]:
            told = command("verdict", *words, "--secrets-program", knows_both(prints(HIDDEN)))
            self.assertEqual((told.returncode, told.stdout), (2, ""), words)
            self.assertIn(note, told.stderr)

    def test_an_older_program(self):
        told = self.told("echo words >&2; exit 2")
        self.assertEqual((told.returncode, told.stdout), (2, ""))
        self.assertIn("status 2, words", told.stderr)
        told = command("verdict", self.image, "--secret", WORD, "--secrets-program", program("hidden\\nend exit 0 retired 4 cycles 21\\n"))
        self.assertEqual((told.returncode, told.stdout), (2, ""))
        self.assertIn("doesn't answer as stt_secrets does", told.stderr)


class PassedThrough(unittest.TestCase):
    """wadrelwy secrets with one name."""

    def test_words(self):
        said, image = knows_both(prints(SHOWN, 1)), loading()
        told = command("secrets", image, "--secret", WORD, "--public-stream", "2", "--desc", CORE, "--steps", "7", "--program", said)
        self.assertEqual((told.returncode, told.stdout, told.stderr), (1, SHOWN, ""))
        command("secrets", image, "--secret", WORD, "--program", said)
        command("secrets", CORE, image, "--secret", WORD, "--program", said)
        self.assertEqual(asked_of(said), [f"{image} --secret {WORD} --public-stream 2 --desc {CORE} --steps 7",
                                          f"{image} --secret {WORD} --steps 4294967295", f"{CORE} {image} --secret {WORD} --cycles 4294967295"])

    def test_refusals(self):
        said, image = knows_both(prints(HIDDEN)), loading()
        for words, note in [((image, "--cycles", "5"), "--cycles is asked of a core"), ((CORE, image, "--steps", "5"), "--steps is asked of an image"),
                            ((CORE, image, "--desc", CORE), "--desc is asked of an image")]:
            told = command("secrets", *words, "--secret", WORD, "--program", said)
            self.assertEqual((told.returncode, told.stdout), (2, ""), words)
            self.assertIn(note, told.stderr)


class Table(unittest.TestCase):
    def setUp(self):
        kept = tempfile.TemporaryDirectory()
        self.addCleanup(kept.cleanup)
        self.folder = os.path.join(kept.name, "table")

    def certify(self, says, *words):
        self.program = knows_both(says)
        return command("certify", self.folder, *words, "--secrets-program", self.program, "--program", test_secrets.traces())

    def cells(self, told):
        """The cells behind program, build and secret, with the titles above them."""
        rows = [line.strip("| ").split(" | ")[3:] for line in told.stdout.splitlines() if line.startswith("| ")]
        return list(zip(*rows))

    def rows(self):
        with open(os.path.join(self.folder, "table.csv"), encoding="utf-8") as file:
            return list(csv.DictReader(file))

    def test_both_columns(self):
        words = "--programs", loading(), "--secret", WORD, "--descriptions", CORE, "--every-core", "--set", "stt.model=spectre,futuristic"
        told = self.certify(prints(HIDDEN), *words)
        self.assertEqual((told.returncode, told.stderr), (0, ""))
        self.assertEqual(self.cells(told), [("`spectre`", "certified"), ("`futuristic`", "certified"), ("every core that delays", EVERY)])
        self.assertEqual(told.stdout.splitlines()[-1], f"2 certified, 0 exposed, 1 {EVERY}")
        self.assertEqual([(row["defence"], row["verdict"], row["cycles"], row["steps"]) for row in self.rows()],
                         [("spectre", "certified", "21", ""), ("futuristic", "certified", "21", ""), ("every core that delays", EVERY, "", "4")])
        again = command("certify", self.folder, "--json", "--secrets-program", self.program)
        self.assertEqual([row["status"] for row in json.loads(again.stdout)["rows"]], [0, 0, 15])

    def test_without_descriptions(self):
        image = material.image_file("absolute.elf", (0x000202b7, 0xff82c303, *EXITS), BOUND_0 + b"\x11")
        told = self.certify(prints(HIDDEN), "--programs", image, "--secret", WORD)
        self.assertEqual((told.returncode, told.stderr), (15, ""))
        self.assertEqual(self.cells(told), [("every core that delays", EVERY)])
        [copy] = glob.glob(f"{self.folder}/programs/*.asked")
        self.assertEqual(asked_of(copy.removesuffix(".asked"))[-1].split()[1:], ["--secret", WORD, "--steps", "4294967295"])

    def test_exposed_and_cut(self):
        for says, status, cell, last in [(prints(SHOWN, 1), 1, "**address**, `00010004`, step 2", "0 certified, 1 exposed"),
                                         (prints(CUT, 3), 3, "nothing shows in the first 3 steps",
                                          "0 certified, 0 exposed, 1 in which nothing shows in the first steps"),
                                         (prints(TRAPPED), 12, "nothing shows, to a trap in step 2", "0 certified, 0 exposed, 1 to a trap")]:
            self.folder += "_"
            told = self.certify(says, "--programs", loading(), "--secret", WORD, "--descriptions", CORE, "--every-core")
            self.assertEqual((told.returncode, told.stderr), (status, ""))
            self.assertEqual(self.cells(told)[1], ("every core that delays", cell))
            self.assertEqual(told.stdout.splitlines()[-1], last.replace("0 certified", "1 certified"))
        told = command("draw", self.folder, "--only", "every core", "--program", test_secrets.traces())
        self.assertEqual(told.returncode, 3)
        self.assertIn("; skipped: it is of every core that delays, and of no one machine", told.stdout)

    def test_memories(self):
        """Every core is asked of once for each memory, and not for each setting."""
        told = self.certify(prints(HIDDEN), "--programs", loading(), "--secret", WORD, "--descriptions", CORE, "--every-core",
                            "--set", "core.rob=8,16", "--set", "ram.size=65536,131072")
        self.assertEqual([title for title, *_ in self.cells(told)[4:]], ["every core that delays, ram.size 65536", "every core that delays, ram.size 131072"])

    def test_refusals(self):
        image = loading()
        for words, note in [(("--programs", image, "--secret", WORD, "--defences"), "--defences is of descriptions"),
                            (("--programs", image, "--secret", WORD, "--set", "core.rob=8"), "--set is of descriptions"),
                            (("--descriptions", CORE), "a table has programs and secrets"), (("--every-core",), "a table has programs and secrets"),
                            (("--programs", image), "a table has programs and secrets")]:
            told = self.certify(prints(HIDDEN), *words)
            self.assertEqual((told.returncode, told.stdout), (2, ""), words)
            self.assertIn(note, told.stderr)

    def test_an_older_program(self):
        older = support.file_of("older", b"#!/bin/sh\necho words >&2\nexit 2\n")
        os.chmod(older, 0o755)
        told = command("certify", self.folder, "--programs", loading(), "--secret", WORD, "--secrets-program", older)
        self.assertEqual((told.returncode, told.stdout), (2, ""))
        self.assertIn("it is an older one, which asks of cores alone", told.stderr)


def knows_steps():
    """Whether the program that is there knows the question."""
    if not PROGRAM:
        return False
    ran = subprocess.run([PROGRAM, support.example("bounds_check.elf"), "--secret", "0x1fff8:1", "--steps", "1"], capture_output=True, check=False)
    return ran.returncode != 2


@unittest.skipUnless(knows_steps(), "no program stt_secrets that knows --steps (crates/stt_secrets/out/stt_secrets, or STT_SECRETS)")
class Program(unittest.TestCase):
    """What the built program says of runs of the instruction set: steps by hand."""

    def told(self, *numbers, words=()):
        image = material.image_file(f"every_core_{len(numbers)}_{numbers[1]:x}.elf", numbers, BOUND_0 + b"\x11")
        return command("verdict", image, "--secret", WORD, "--desc", CORE, *words)

    def test_certified(self):
        told = self.told(LOADS, 0x006303b3, *EXITS)
        self.assertEqual((told.returncode, told.stderr), (15, ""))
        self.assertIn("\nrun           end exit 0 retired 4\n", told.stdout)

    def test_exposed(self):
        """The secret as an address, a dividend, and the operand of a branch, each in step 2; as the value of an exit in step 3."""
        for number, what in [(0x00032383, "its address"), (0x025343b3, "its time"), (0x00037463, "where it goes")]:
            told = self.told(LOADS, number, *EXITS)
            self.assertEqual((told.returncode, told.stderr), (1, ""))
            self.assertRegex(told.stdout, rf"\nshown         00010004 .*: {what}, in step 2\n")
        told = self.told(0x00814503, *EXITS)
        self.assertRegex(told.stdout, r"\nshown         00010008 .*: what it asks for, in step 3\n")

    def test_other_ends(self):
        for number, steps, word, status in [(0x00002003, "9", "nothing shows, to a trap in step 2", 12), (0x006303b3, "2", "nothing shows in the first 2 steps", 3)]:
            told = self.told(LOADS, number, *EXITS, words=("--steps", steps))
            self.assertEqual((told.returncode, told.stderr), (status, ""))
            self.assertIn(f"\nverdict       {word}", told.stdout)

    def test_bounds_check(self):
        """The wrong path isn't walked: what a core without protection shows there is no part of this claim."""
        told = command("verdict", support.example("bounds_check.elf"), "--secret", WORD, "--desc", CORE)
        self.assertEqual((told.returncode, told.stderr), (13, ""))


if __name__ == "__main__":
    unittest.main()
