"""What is certified for what is published (docs/secrets.md, "Make something public"): the verdict, the table and what is drawn, by stand-ins."""
import csv
import glob
import os
import re
import subprocess
import tempfile
import unittest

import material
from material import CORE, command, support
from test_secrets import EXITS, HIDDEN, LOADS, PROGRAM, SHOWN, STORES, WORD, asked_of, loading, needs_secrets, program, traces
from wadrelwy.verdict import published
from wadrelwy.verdict.ranges import Range

# addi x10, x0, 0
ZERO = 0x00000513


def writes(stream, offset, size=1):
    """The words that write so many bytes, from x2 and an offset on, to a stream."""
    return (0x04000893, 0x00000513 | stream << 20, 0x00010593 | offset << 20, 0x00000613 | size << 20, 0x00000073)


# the secret's lowest bit goes to memory behind it: andi x6, x6, 1; sb x6, 12(x2); to stream 2; and the run exits with 0
LOWEST_BIT = (LOADS, 0x00137313, 0x00610623, *writes(2, 12), ZERO, *EXITS)
# the secret itself
ITSELF = (LOADS, *writes(2, 8), ZERO, *EXITS)
BIT, BIT_ITSELF = (f"hidden\npublished 1\nend exit 0 retired {steps} cycles 33\n" for steps in (11, 9))
# of docs/formats.md, "The program stt_secrets": the secret goes to stream 2, is loaded anew, and something is looked up by it
LOOKED_UP = (0x00814283, 0x00510623, 0x00200513, 0x00c10593, 0x00100613, 0x04000893, 0x00000073, 0x00c14383, 0x002383b3, 0xf003c403, ZERO, *EXITS)
PUBLIC = "--public-stream", "2"
CLAIM = "every value of these bytes with which as many steps of the instruction set publish the same gives the trace of this run, and that is proved"


def says(said, status=0, name="publishes"):
    return program(said.replace("\n", "\\n"), status, name)


class Outputs(unittest.TestCase):
    def image(self, *numbers):
        return material.loaded("writes.elf", [material.segment(material.CODE, material.words(*numbers), True),
                                              material.segment(material.DATA, bytes(range(8)) + b"\x11")])

    def test_of_streams(self):
        """What goes to a public stream alone, in the steps that are asked for, a call that writes nothing and one that ends the run among
        them."""
        image = self.image(*writes(1, 1, 2), *writes(2, 3, 3), *writes(3, 1), *writes(2, 0, 0), *writes(2, 6), *EXITS)
        for streams, steps, data, taken in [((2,), 100, b"\3\4\5\6", 27), ((1,), 100, b"\1\2", 27), ((1, 2), 100, b"\1\2\3\4\5\6", 27),
                                            ((2,), 9, b"", 9), ((2,), 10, b"\3\4\5", 10), ((), 100, b"", 27)]:
            with self.subTest(streams=streams, steps=steps):
                self.assertEqual(published.output(image, streams, steps), (streams, taken, data))

    def test_another_value(self):
        """The same is published where the bytes are the same in as many steps, whatever other steps would write."""
        image = self.image(*LOWEST_BIT)
        secret, wanted = [Range(material.SECRET, 1)], published.output(image, (2,), 11)
        self.assertEqual(wanted.data, b"\1")
        for value, same in [(0x11, True), (0x13, True), (0x10, False), (0, False)]:
            self.assertEqual(published.is_published(published.with_value(image, secret, bytes([value])), wanted), same, value)
        self.assertEqual(image.memory[material.SECRET - image.base], 0x11)
        for data in (b"\1\1", b""):
            self.assertFalse(published.is_published(image, wanted._replace(data=data)), "a part of what is published isn't the same")
        earlier = published.output(image, (2,), 7)
        self.assertTrue(published.is_published(published.with_value(image, secret, b"\0"), earlier))

    def test_lines(self):
        self.assertEqual([published.told(data) for data in (b"", b"\1", bytes(4), bytes(66))],
                         ["0 bytes", "1 byte, 01", "4 bytes, 00000000", f"66 bytes, {bytes(64).hex()} and 2 more"])
        self.assertEqual([published.told_streams(streams) for streams in ((), (2,), (1, 2))], ["no stream", "stream 2", "streams 1 and 2"])


class OneImage(unittest.TestCase):
    """The verdict with a public stream."""

    def told(self, said, *words, numbers=LOWEST_BIT, status=0):
        self.program, self.image = says(said, status), loading(*numbers)
        return command("verdict", CORE, self.image, "--secret", WORD, *words, "--secrets-program", self.program, "--program", traces())

    def test_certified(self):
        told = self.told(BIT, *PUBLIC, "--cycles", "500")
        self.assertEqual((told.returncode, told.stderr), (10, ""))
        self.assertIn("\npublic        stream 2\npath          loads 1 of these 1 bytes\n", told.stdout)
        self.assertIn("\nrun           end exit 0 retired 11 cycles 33\npublished     1 byte, 01\nshown         nothing ", told.stdout)
        self.assertTrue(told.stdout.endswith(f"\nverdict       certified for what is published: {CLAIM}\n"), told.stdout)
        self.assertEqual(asked_of(self.program), [f"{CORE} {self.image} --secret {WORD} --public-stream 2 --cycles 500"])

    def test_the_page(self):
        """The answer that docs/formats.md has is of as many bytes and steps as the instruction set takes."""
        [said] = re.findall(r"```\n(hidden\npublished 1\n.*\n)```", material.read("docs", "formats.md"))
        told = self.told(said, *PUBLIC, numbers=LOOKED_UP)
        self.assertEqual((told.returncode, told.stderr), (10, ""))
        self.assertIn("\nrun           end exit 0 retired 13 cycles 33\npublished     1 byte, 11\n", told.stdout)

    def test_both(self):
        told = self.told(BIT, *PUBLIC, "--public-stream", "1", "--cycles", "500")
        self.assertEqual((told.returncode, told.stderr), (10, ""))
        self.assertIn("\npublic        streams 1 and 2\n", told.stdout)
        self.assertEqual(asked_of(self.program), [f"{CORE} {self.image} --secret {WORD} --public-stream 1 --public-stream 2 --cycles 500"])

    def test_other_ends(self):
        """The worst of what is said is the status, and no word is the one of all secrets."""
        for numbers, count, end, word, status in [
                (LOWEST_BIT, 1, "exit 1 retired 11", "certified for what is published, exit 1", 11),
                (LOWEST_BIT, 1, "trap 5 00010004 retired 11", "certified for what is published, to a trap in cycle 33", 12),
                (LOWEST_BIT, 1, "budget retired 8", "certified for what is published in the first 33 cycles, of a run that goes on", 3),
                (LOWEST_BIT, 0, "budget retired 7", "certified for what is published in the first 33 cycles, of a run that goes on", 3),
                (EXITS, 0, "exit 0 retired 2", "vacuous", 13), (STORES, 0, "exit 7 retired 4", "vacuous, exit 7", 13)]:
            with self.subTest(end=end):
                told = self.told(f"hidden\npublished {count}\nend {end} cycles 33\n", *PUBLIC, numbers=numbers)
                self.assertEqual((told.returncode, told.stderr), (status, ""))
                self.assertIn(f"\nverdict       {word}: {CLAIM}", told.stdout)
                self.assertIn(f"\npublished     {'1 byte, 01' if count else '0 bytes'}\n", told.stdout)

    def test_exposed(self):
        told = self.told(SHOWN, *PUBLIC, status=1)
        self.assertEqual((told.returncode, told.stderr), (1, ""))
        self.assertIn("\npublic        stream 2\n", told.stdout)
        self.assertNotIn("\npublished ", told.stdout)
        self.assertIn("\nverdict       exposed: ", told.stdout)

    def test_without(self):
        told = self.told(HIDDEN)
        self.assertEqual((told.returncode, told.stderr), (0, ""))
        self.assertNotIn("public", told.stdout)

    def test_other_answers(self):
        """An answer of other streams is none, and so is one of other bytes than the instruction set publishes."""
        for said, words, note in [
                (HIDDEN, PUBLIC, "doesn't answer as stt_secrets does"), (BIT, (), "doesn't answer as stt_secrets does"),
                (BIT.replace("published 1", "published 2"), PUBLIC,
                 "says that it publishes 2 bytes in 11 steps, and by the instruction set it publishes 1 byte in 11: "),
                (BIT.replace("retired 11", "retired 7"), PUBLIC, "1 byte in 7 steps, and by the instruction set it publishes 0 bytes in 7: "),
                (BIT.replace("retired 11", "retired 12"), PUBLIC, "1 byte in 12 steps, and by the instruction set it publishes 1 byte in 11: ")]:
            with self.subTest(said=said, words=words):
                told = self.told(said, *words)
                self.assertEqual((told.returncode, told.stdout, told.stderr.count("\n")), (2, "", 1))
                self.assertIn(note, told.stderr)

    def test_refused_words(self):
        for words, note in [(("0",), "1 or 2"), (("3",), "1 or 2"), (("1,2",), "1 or 2"), (("0x1",), "1 or 2"), (("",), "1 or 2"),
                            (("\u0662",), "1 or 2"), (("-1",), "--public-stream"), (("2", "--public-stream", "02"), "--public-stream 2 stands twice")]:
            with self.subTest(words=words):
                told = self.told(BIT, "--public-stream", *words)
                self.assertEqual((told.returncode, told.stdout, told.stderr.count("\n")), (2, "", 1))
                self.assertIn(note, told.stderr)
        told = command("verdict", CORE, self.image, self.image, *PUBLIC)
        self.assertEqual((told.returncode, told.stdout), (2, ""))
        self.assertIn("--public-stream is of one image and its secret", told.stderr)


# answers with what is published where a stream is public, and leaves its words for each run but those that only look at descriptions
ANSWERS = """#!/bin/sh
case "$*" in *"--cycles 1") ;; *) echo "$*" >> RAN ;; esac
grep -q '^model = "off"' $1 && echo "shown 15 access 6 00010018" && exit 1
case "$*" in
*--public-stream*) printf 'hidden\\npublished 1\\nend exit 0 retired STEPS cycles 33\\n' ;;
*) printf 'hidden\\nend exit 0 retired STEPS cycles 33\\n' ;;
esac
"""
EQUAL, UNEQUAL = ("#!/bin/sh\nprintf 'premise no\\n%s\\nretired 11 cycles 33\\n'\n" % said for said in ("equal", "unequal 16"))
# unequal where the lowest bits of the two secrets, the last bytes of the images, aren't those of the number 1
UNLIKE = """#!/bin/sh
for image in $3 $4; do
  case $(tail -c 1 $image | od -An -tu1) in *[13579]) ;; *) printf 'premise no\\nunequal 16\\nretired 11 cycles 33\\n'; exit 1 ;; esac
done
printf 'premise no\\nequal\\nretired 11 cycles 33\\n'
"""


@needs_secrets
class Program(unittest.TestCase):
    """What the built program says of the small program of docs/formats.md."""

    def test_looked_up(self):
        """The look-up by the byte that was published shows nothing, and shows where its stream isn't public."""
        image = loading(*LOOKED_UP)
        asked = subprocess.run([PROGRAM, CORE, image, "--secret", WORD, *PUBLIC, "--cycles", "1"], capture_output=True, text=True, check=False)
        if (asked.returncode, asked.stderr) == (2, "words\n"):
            self.skipTest("the built program stt_secrets is an older one, without public streams")
        told = command("verdict", CORE, image, "--secret", WORD, *PUBLIC)
        self.assertEqual((told.returncode, told.stderr), (10, ""))
        self.assertIn("\nrun           end exit 0 retired 13 cycles 33\npublished     1 byte, 11\n", told.stdout)
        for words in ((), ("--public-stream", "1")):
            told = command("verdict", CORE, image, "--secret", WORD, *words)
            self.assertEqual((told.returncode, told.stderr), (1, ""))
            self.assertIn(": its address, in cycle ", told.stdout)


class Table(unittest.TestCase):
    def setUp(self):
        kept = tempfile.TemporaryDirectory()
        self.addCleanup(kept.cleanup)
        self.folder, self.ran = os.path.join(kept.name, "table"), os.path.join(kept.name, "ran")

    def stand_in(self, name, text):
        path = support.file_of(name, text.encode())
        os.chmod(path, 0o755)
        return path

    def certify(self, *words, numbers=LOWEST_BIT):
        """The whole command where there are words, else the folder alone."""
        said = self.stand_in("answers", ANSWERS.replace("RAN", self.ran).replace("STEPS", str(len(numbers))))
        whole = ("--programs", loading(*numbers), "--secret", WORD, "--descriptions", CORE) if words else ()
        return command("certify", self.folder, *whole, *words[1:], "--secrets-program", said, "--program", traces())

    def draw(self, text, *words):
        return command("draw", self.folder, *words, "--program", self.stand_in("pairs", text))

    def rows(self, record):
        with open(record, encoding="utf-8", newline="") as file:
            return list(csv.DictReader(file))

    def runs(self):
        with open(self.ran, encoding="utf-8") as file:
            return file.read().splitlines()

    def test_table(self):
        """Cell, sum, file and status say that it is for what is published."""
        told = self.certify("all", *PUBLIC)
        self.assertEqual((told.returncode, told.stderr, told.stdout.splitlines()[-1]), (10, "", "1 certified for what is published, 0 exposed"))
        self.assertIn("| certified for what is published; 1 byte published |\n", told.stdout)
        self.assertRegex(self.runs()[0], rf" --secret {WORD} --public-stream 2 --cycles 4294967295$")
        with open(os.path.join(self.folder, "table.csv"), encoding="utf-8") as file:
            [row] = csv.DictReader(file)
        self.assertEqual([row[name] for name in ("verdict", "public_streams", "published", "published_bytes", "loaded")],
                         ["certified for what is published", "2", "1", "01", "1"])
        told = self.certify("all", *PUBLIC, "--set", "stt.model=off,spectre")
        self.assertEqual((told.returncode, told.stdout.splitlines()[-1]), (1, "1 certified for what is published, 1 exposed"))

    def test_what_was_asked(self):
        """An answer is kept and shown of the streams alone that it was asked with."""
        self.assertEqual(self.certify("all").stdout.splitlines()[-1], "1 certified, 0 exposed")
        for words, status, ran in [(("all", *PUBLIC), 10, 2), ((), 10, 2), (("all",), 0, 2), (("all", "--public-stream", "1", *PUBLIC), 10, 3)]:
            self.assertEqual((self.certify(*words).returncode, len(self.runs())), (status, ran), words)

    def test_another_stream(self):
        """A folder that is asked for other streams than its own is refused, and so is one of other bytes than are published."""
        self.certify("all", *PUBLIC)
        said = self.stand_in("answers", ANSWERS.replace("RAN", self.ran).replace("STEPS", "11"))
        for name, words in [("certify", ("--secrets-program", said, "--program", traces())), ("draw", ("--program", self.stand_in("pairs", EQUAL)))]:
            told = command(name, self.folder, "--public-stream", "1", *words)
            self.assertEqual((told.returncode, told.stdout), (2, ""))
            self.assertIn("was asked with stream 2 public, and not with stream 1", told.stderr)
            self.assertIn(command(name, self.folder, *PUBLIC, *words).returncode, (0, 10))
        [result] = glob.glob(f"{self.folder}/results/*")
        with open(result, encoding="utf-8") as file:
            text = file.read()
        for other, status, ran in [(text.replace("published 1\n", ""), 10, 2), (text.replace("published 1\n", "published 2\n"), 2, 2)]:
            with open(result, "w", encoding="utf-8") as file:
                file.write(other)
            self.assertEqual((self.certify().returncode, len(self.runs())), (status, ran))

    def test_draw(self):
        """Values that publish something else aren't compared: their traces may be unequal."""
        self.certify("all", *PUBLIC)
        told = self.draw(UNLIKE, "--draws", "256")
        self.assertEqual((told.returncode, told.stderr), (0, ""))
        self.assertTrue(told.stdout.endswith(" certified for what is published; none of 127 values unequal; of 255 values tried 127 publish the "
                                             "same\n"), told.stdout)
        told = self.draw(UNEQUAL, "--draws", "3", *PUBLIC)
        self.assertEqual(told.returncode, 16)
        self.assertRegex(told.stdout, "; unequal in cycle 16, with the secrets 11 and [0-9a-f][13579bdf], pair 1 of those tried; of [45] values tried ")
        self.assertIn("traces that are proved equal aren't", told.stderr)

    def test_record(self):
        """With a record only those values are compared, too, and it says how many were tried; more draws only add."""
        self.certify("all", *PUBLIC)
        record = os.path.join(self.folder, "record.csv")
        self.assertEqual(self.draw(UNLIKE, "--draws", "20", "--record", record).returncode, 0)
        [row] = self.rows(record)
        compared, tried = int(row["values_compared"]), int(row["last_value"])
        self.assertEqual((row["public_streams"], row["values_that_publish_the_same"]), ("2", row["values_compared"]))
        self.assertTrue(0 < compared < tried <= 22, row)
        told = self.draw(UNLIKE, "--draws", "256", "--record", record)
        self.assertEqual((told.returncode, told.stderr), (0, ""))
        self.assertTrue(told.stdout.endswith(f"; none of 127 values unequal, {127 - compared} of them compared now and {compared} before; of 255 values "
                                             "tried 127 publish the same\n"), told.stdout)
        self.assertEqual([[row["first_value"], row["last_value"]] for row in self.rows(record)], [["1", str(tried)], [str(tried + 1), "255"]])

    def test_record_of_nothing(self):
        """Values of which none publishes the same were tried, and aren't again."""
        self.certify("all", *PUBLIC, numbers=ITSELF)
        record = os.path.join(self.folder, "record.csv")
        for _ in range(2):
            told = self.draw(EQUAL, "--draws", "256", "--record", record)
            self.assertEqual((told.returncode, told.stderr), (3, ""))
            self.assertTrue(told.stdout.endswith("; nothing compared; of 255 values tried 0 publish the same, and there are no others\n"), told.stdout)
            self.assertEqual([(row["first_pair"], row["last_pair"], row["first_value"], row["last_value"], row["values_compared"], row["result"])
                              for row in self.rows(record)], [("1", "0", "1", "255", "0", "equal")])

    def test_nothing_to_compare(self):
        """Where no other value publishes the same it says so, and has no status of an answer that was held against the machine."""
        self.certify("all", *PUBLIC, numbers=ITSELF)
        for draws, line in [("256", "of 255 values tried 0 publish the same, and there are no others"),
                            ("1", "of 3 values tried 0 publish the same: --draws N looks further")]:
            told = self.draw(EQUAL, "--draws", draws)
            self.assertEqual((told.returncode, told.stderr), (3, ""))
            self.assertTrue(told.stdout.endswith(f" certified for what is published; nothing compared; {line}\n"), told.stdout)

    def test_draw_of_what_shows(self):
        self.certify("all", *PUBLIC, "--set", "stt.model=off")
        told = self.draw(UNLIKE, "--draws", "256")
        self.assertEqual((told.returncode, told.stderr), (0, ""))
        self.assertTrue(told.stdout.endswith(" exposed; none of 127 values unequal; of 255 values tried 127 publish the same, and there are no "
                                             "others that do: what shows is conservative\n"), told.stdout)
        told = self.draw(UNEQUAL, "--draws", "3")
        self.assertEqual(told.returncode, 0)
        self.assertRegex(told.stdout, r" exposed; unequal in cycle 16, with the secrets 11 and ..*; of \d values tried \d publish the same$")


if __name__ == "__main__":
    unittest.main()
