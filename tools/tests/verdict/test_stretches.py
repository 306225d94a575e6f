"""What `wadrelwy draw --record` keeps, and how it goes on (docs/secrets.md, "Against the machine"), by stand-ins for the programs."""
import csv
import errno
import hashlib
import io
import os
import signal
import subprocess
import sys
import tempfile
import time
import unittest
from unittest import mock

import material
from material import BOUND_0, CORE, SECRET, command, support
from test_published import UNEQUAL
from test_secrets import EXITS, LOADS, traces
from wadrelwy import Fault
from wadrelwy.verdict import drawing, side_by_side, stretches

# answers for each pair that it is equal, and leaves a line with the last words of the two images, which are their secrets, and the
# model. The first value has the image's own for its partner, and so has the last where one is left: 12 values are 7 pairs
LOGGED = """#!/bin/sh
LATER
echo $(for image in $3 $4; do tail -c 4 $image | od -An -tx1 | tr -d ' '; done) $(grep '^model' $2) >> ASKED
printf 'premise no\\nequal\\nretired 5 cycles 21\\n'
"""
HIDDEN = "#!/bin/sh\nprintf 'hidden\\nend exit 0 retired 5 cycles 21\\n'\n"
SHOWN = "#!/bin/sh\nprintf 'shown 15 access 6 00010018\\n'\nexit 1\n"
OWN = b"\1\2\3\xf4"


class Recorded(unittest.TestCase):
    """Of a secret of a word, under both models that protect."""

    def setUp(self):
        kept = tempfile.TemporaryDirectory()
        self.addCleanup(kept.cleanup)
        self.folder, self.record, self.asked = (os.path.join(kept.name, name) for name in ("table", "record.csv", "asked"))
        self.certify(HIDDEN)
        self.program = self.logging()

    def certify(self, text):
        image = material.image_file("word.elf", (LOADS, *EXITS), BOUND_0 + OWN)
        told = command("certify", self.folder, "--programs", image, "--secret", f"0x{SECRET:08x}:4", "--descriptions", CORE, "--set",
                       "stt.model=spectre,futuristic", "--secrets-program", self.stand_in("says", text), "--program", traces())
        self.assertIn(told.returncode, (0, 1), told.stderr)

    def stand_in(self, name, text):
        path = support.file_of(name, text.encode())
        os.chmod(path, 0o755)
        return path

    def logging(self, name="logged", later=""):
        return self.stand_in(name, LOGGED.replace("ASKED", self.asked).replace("LATER", later))

    def words(self, *words):
        return "draw", self.folder, *words, "--program", self.program

    def draw(self, *words):
        return command(*self.words("--record", self.record, *words))

    def pairs(self):
        """The pairs that were run since the last call, as words: the two secrets, and the model's line."""
        if not os.path.exists(self.asked):
            return []
        with open(self.asked, encoding="ascii") as file:
            found = [line.split() for line in file]
        os.remove(self.asked)
        return found

    def rows(self):
        with open(self.record, encoding="utf-8", newline="") as file:
            return list(csv.DictReader(file))

    def test_rows(self):
        """A row for each cell: of what it is, how far it was compared, by which simulator, and what came of it."""
        told = self.draw("--draws", "3", "--seed", "7")
        self.assertEqual((told.returncode, told.stderr), (0, ""))
        for line in told.stdout.splitlines():
            # zeros and ones, four values of one address, it beside the own and beside zeros; and three that are drawn
            self.assertRegex(line, r"certified; none of 11 values unequal, 11 of them compared now and 0 before$")

        def sha256(path):
            with open(path, "rb") as file:
                return hashlib.sha256(file.read()).hexdigest()
        images, descriptions = ({sha256(os.path.join(self.folder, kind, name)) for name in os.listdir(os.path.join(self.folder, kind))}
                                for kind in ("images", "descriptions"))
        rows = self.rows()
        self.assertEqual(sorted(row["name"] for row in rows), sorted(line.split(":")[0] for line in told.stdout.splitlines()))
        self.assertEqual({row["image_sha256"] for row in rows}, images)
        self.assertEqual({row["description_sha256"] for row in rows}, descriptions)
        self.assertEqual({(row["secret"], row["public_streams"], row["cycles"], row["seed"]) for row in rows}, {("0001fff8:4", "", "4294967295", "7")})
        self.assertEqual({(row["first_pair"], row["last_pair"], row["first_value"], row["last_value"], row["values_compared"],
                           row["values_that_publish_the_same"], row["result"]) for row in rows}, {("1", "6", "1", "11", "11", "", "equal")})
        self.assertEqual({row["simulator_sha256"] for row in rows}, {sha256(self.program)})

    def test_goes_on(self):
        """What was compared isn't run again, and more draws only add, by whichever simulator; all is what one call without a record compares."""
        self.draw("--draws", "4")
        first = self.pairs()
        self.assertEqual(len(first), 2 * 7)
        told = self.draw("--draws", "4")
        self.assertEqual((told.returncode, self.pairs()), (0, []))
        self.assertEqual(told.stdout.count("certified; none of 12 values unequal, 0 of them compared now and 12 before\n"), 2)
        self.program = self.logging("another", "# it is another file")
        told = self.draw("--draws", "9")
        added = self.pairs()
        self.assertEqual(told.stdout.count("certified; none of 17 values unequal, 5 of them compared now and 12 before\n"), 2)
        self.assertEqual([(row["first_pair"], row["last_pair"], row["first_value"], row["last_value"]) for row in self.rows()],
                         [("1", "7", "1", "12")] * 2 + [("8", "10", "13", "17")] * 2)
        self.assertEqual(len({row["simulator_sha256"] for row in self.rows()}), 2)
        told = self.draw("--draws", "2")
        self.assertEqual(told.stdout.count("certified; none of 17 values unequal, 0 of them compared now and 17 before\n"), 2)
        self.assertEqual(self.pairs(), [])
        command(*self.words("--draws", "9"))
        whole = self.pairs()
        self.assertEqual(*[sorted({(word, *pair[2:]) for pair in found for word in pair[:2]}) for found in (first + added, whole)])

    def test_side_by_side(self):
        """Each cell has its first pair before one has its second."""
        self.draw("--draws", "6", "--jobs", "1")
        models = [words[-1] for words in self.pairs()]
        self.assertEqual([len(set(models[at:at + 2])) for at in range(0, len(models), 2)], [2] * 8)

    def test_another_cell(self):
        """Another seed, and another image, have pairs of their own."""
        self.draw("--draws", "4")
        self.pairs()
        self.draw("--draws", "4", "--seed", "2")
        self.assertEqual((len(self.pairs()), len(self.rows())), (14, 4))
        image = material.image_file("word.elf", (LOADS, LOADS, *EXITS), BOUND_0 + OWN)
        command("certify", self.folder, "--programs", image, "--secret", f"0x{SECRET:08x}:4", "--descriptions", CORE, "--secrets-program",
                self.stand_in("says", HIDDEN), "--program", traces())
        told = self.draw("--draws", "4")
        self.assertIn("none of 12 values unequal, 12 of them compared now and 0 before", told.stdout)
        self.assertEqual((len(self.pairs()), len(self.rows())), (7, 5))

    def test_one_image_by_two_names(self):
        """What is one cell is compared once, and told of both."""
        images = [material.image_file(name, (LOADS, *EXITS), BOUND_0 + OWN) for name in ("one.elf", "other.elf")]
        command("certify", self.folder, "--programs", *images, "--secret", f"0x{SECRET:08x}:4", "--descriptions", CORE, "--secrets-program",
                self.stand_in("says", HIDDEN), "--program", traces())
        told = self.draw("--draws", "3")
        self.assertEqual([line.split()[0] for line in told.stdout.splitlines()], ["one", "other"])
        self.assertEqual((told.stdout.count("none of 11 values unequal, 11 of them compared now"), len(self.pairs()), len(self.rows())), (2, 6, 1))

    def test_stopped(self):
        """Killed or interrupted it has whole rows of about as many pairs each, and the same command goes on with the others."""
        self.program = self.logging("slow", "sleep 0.05")
        for number, status in [(signal.SIGKILL, -signal.SIGKILL), (signal.SIGINT, 130)]:
            before = len(self.rows()) if os.path.exists(self.record) else 0
            words = self.words("--record", self.record, "--draws", "60", "--jobs", "2")
            with subprocess.Popen([sys.executable, support.TOOL, *words], stdout=subprocess.PIPE, stderr=subprocess.PIPE, text=True) as child:
                until = time.monotonic() + 60
                while not os.path.exists(self.record) or len(self.rows()) < before + 2 or int(self.rows()[-1]["last_pair"]) % 30 < 3:
                    self.assertLess(time.monotonic(), until)
                    time.sleep(0.02)
                child.send_signal(number)
                _, said = child.communicate()
            self.assertEqual(child.returncode, status, said)
            if number == signal.SIGINT:
                self.assertEqual(said, "wadrelwy draw: interrupted; the same command goes on where it stopped\n")
            last = [int(row["last_pair"]) for row in self.rows()[-2:]]
            self.assertLessEqual(abs(last[0] - last[1]), 1)
            self.assertEqual({row["result"] for row in self.rows()}, {"equal"})
        time.sleep(0.2)
        run = self.pairs()
        kept = sum(int(row["last_pair"]) - int(row["first_pair"]) + 1 for row in self.rows())
        self.assertLessEqual(len(run) - kept, 4)
        told = self.draw("--draws", "60")
        self.assertEqual((told.returncode, len(self.pairs())), (0, 2 * 35 - kept))
        self.assertEqual(told.stdout.count("certified; none of 68 values unequal, "), 2)

    def test_unequal(self):
        """Two unequal traces are told again, and nothing of that cell is run again."""
        self.program = self.stand_in("pairs", UNEQUAL)
        for old in ("", ", compared before"):
            told = self.draw("--draws", "3")
            self.assertEqual((told.returncode, told.stderr.count("traces that are proved equal aren't")), (16, 2))
            self.assertEqual(told.stdout.count(f"; unequal in cycle 16, with the secrets 010203f4 and 00000000, pair 1 of those tried{old}\n"), 2)
            self.assertEqual({row["result"] for row in self.rows()}, {"unequal 16 010203f4 00000000"})
            self.program = self.logging()
        self.assertEqual(self.pairs(), [])

    def test_exposed(self):
        """Of what shows each value is compared with the image's own, until one is unequal."""
        self.certify(SHOWN)
        self.draw("--draws", "3")
        pairs = self.pairs()
        self.assertEqual({pair[0] for pair in pairs}, {OWN.hex()})
        self.assertEqual(len(pairs), 2 * 15)
        told = self.draw("--draws", "5")
        self.assertEqual(told.stdout.count("exposed; none of 17 values unequal, 2 of them compared now and 15 before: what shows may be conservative, or is "
                                           "hardly ever met: of the 5 drawn none is"), 2)
        self.assertEqual(len(self.pairs()), 4)
        told = self.draw("--draws", "2")
        self.assertEqual(told.stdout.count(": of the 5 drawn none is"), 2)
        self.assertEqual(self.pairs(), [])

    def test_no_record(self):
        """A file that is no record is refused in one line, and left as it is."""
        self.draw("--draws", "3")
        self.pairs()
        with open(self.record, encoding="utf-8") as file:
            head, row, *_ = file.read().splitlines()
        told = "is none of a record"
        for text, why in [("", "doesn't name the columns"), ("a,b\n1,2\n", "doesn't name the columns"), (f"{head}\n{row},x\n", told), (f"{head}\n\n", told),
                          (f"{head}\n{row}\n{row.replace('equal', 'same')}\n", "row 2 is none"), (f"{head}\n{row.replace(',11,,', ',12,,')}\n", told),
                          (f"{head}\n{row.replace(',1,6,', ',1,5,')}\n", told), (f"{head}\n{row.replace(',1,6,', ',0,5,')}\n", told),
                          (f"{head}\n{row.replace('equal', 'unequal 3 0 11')}\n", told), (f"{head}\n{row[:-20]}\n", told), (f"{head}\n\"{row}\n", "no CSV"),
                          (f"{head}\n{row.replace(',11,,', ',11,11,')}\n", told)]:
            with self.subTest(text=text):
                with open(self.record, "w", encoding="utf-8") as file:
                    file.write(text)
                said = self.draw("--draws", "3")
                self.assertEqual((said.returncode, said.stdout, said.stderr.count("\n")), (2, "", 1), said.stderr)
                self.assertIn(why, said.stderr)
                self.assertIn(self.record, said.stderr)
                with open(self.record, encoding="utf-8") as file:
                    self.assertEqual(file.read(), text)
        self.assertEqual(self.pairs(), [])
        self.assertEqual(command(*self.words("--record", "")).returncode, 2)
        self.assertEqual(command(*self.words("--record", os.path.join(self.folder, "nowhere", "record.csv"))).returncode, 2)

    def test_one_process(self):
        with stretches.Locked(self.record):
            told = self.draw("--draws", "3")
            self.assertEqual((told.returncode, told.stdout, self.pairs()), (2, "", []))
            self.assertEqual(told.stderr, f"wadrelwy draw: {self.record} is written by another wadrelwy draw, process {os.getpid()}: one at a time may\n")
        with open(f"{self.record}.lock", "w", encoding="ascii") as file:
            file.write("12345\n")
        self.assertEqual(self.draw("--draws", "3").returncode, 0, "a process that was killed has no lock, though its file may be there")
        with mock.patch.object(stretches.fcntl, "flock", side_effect=OSError(errno.ENOLCK, "No locks available")):
            with self.assertRaisesRegex(Fault, "record.csv.lock: No locks available$"):
                stretches.Locked(self.record).take()
        os.remove(f"{self.record}.lock")
        self.assertEqual(len(self.pairs()), 2 * 6)
        self.assertEqual(sorted(name for name in os.listdir(os.path.dirname(self.record)) if name.startswith("record")), ["record.csv"])

    def test_a_simulator_that_changes(self):
        """A program that is built anew while it is asked ends the call, and its pair isn't kept."""
        self.program = self.logging("changes", f"[ $(cat {self.asked} 2> /dev/null | wc -l) = 3 ] && echo '#' >> $0")
        told = self.draw("--draws", "6", "--jobs", "1")
        self.assertEqual((told.returncode, told.stdout), (2, ""))
        self.assertIn(f"{self.program} isn't what it was when this call began", told.stderr)
        self.assertEqual(sorted(int(row["last_pair"]) for row in self.rows()), [1, 2])


class Terminal(io.StringIO):
    def isatty(self):
        return True


class Lists(unittest.TestCase):
    def test_progress(self):
        """On a terminal it is told how many values are left of all cells, and for how long; the line is taken away again."""
        def question(values):
            cell = stretches.Cell("0" * 64, "1" * 64, "0001fff8:1", "", "100", str(len(values)), "2" * 64)
            return side_by_side.Question("name", cell, b"\0", values, False, lambda value: True, lambda two: None, "3" * 64)
        with tempfile.TemporaryDirectory() as folder:
            record, screen = stretches.Record(os.path.join(folder, "record.csv")), Terminal()
            begun = [side_by_side.Going(question(values), stretches.Known()) for values in ([b"\1", b"\2", b"\3"], [b"\1", b"\2"])]
            self.assertEqual({each.tried for each in side_by_side.ended(begun, 1, record, screen)}, {2, 3})
        parts = screen.getvalue().split("\r")
        self.assertEqual([part.split(",")[0] for part in parts if "values" in part],
                         ["1 of 5 values", "2 of 5 values", "4 of 5 values", "5 of 5 values"])
        self.assertEqual(parts[-2:], [" " * 60, ""])

    def test_more_draws_only_add(self):
        for own in (b"\x11", bytes(5), bytes(32)):
            longest = drawing.others(own, drawing.drawn(own, 300, 1))
            for draws in (1, 2, 20, 255, 256, 257):
                found = drawing.others(own, drawing.drawn(own, draws, 1))
                self.assertEqual(found, longest[:len(found)])
                self.assertTrue(len(own) == 1 or len(found) == draws)
        self.assertEqual(len(drawing.others(b"\x11", drawing.drawn(b"\x11", 256, 1))), 255)

    def test_known(self):
        """Of stretches of one cell that a gap parts only the first counts, and none twice."""
        cell = stretches.Cell("0" * 64, "1" * 64, "0001fff8:4", "", "100", "1", "2" * 64)

        def stretch(first_pair, last_pair, first, last):
            return stretches.Stretch("name", cell, first_pair, last_pair, first, last, last - first + 1, "3" * 64)
        one, two, gap = stretch(1, 3, 1, 5), stretch(4, 4, 6, 7), stretch(9, 9, 20, 21)
        self.assertEqual(stretches.known([]), (0, 0, 0, None))
        self.assertEqual(stretches.known([one]), (5, 5, 3, None))
        self.assertEqual(stretches.known([gap, two, one, one]), (7, 7, 4, None))
        self.assertEqual(stretches.known([two, gap]), (0, 0, 0, None))


if __name__ == "__main__":
    unittest.main()
