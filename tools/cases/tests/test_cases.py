"""Each file of cases is run by the gate, and case_runs refuses a file that it can't read, with the line, and tells of a run that differs."""
import os
import re
import subprocess
import tempfile
import unittest

ROOT = os.path.dirname(os.path.dirname(os.path.dirname(os.path.dirname(os.path.realpath(__file__)))))
CRATE = os.path.join(ROOT, "crates", "case_runs")
PROGRAM = os.environ.get("CASE_RUNS", os.path.join(CRATE, "out", "case_runs"))

GOOD = """# An exit in two steps.

program exit_in_two
    05d00893 addi x17,x0,93
    00000073 ecall

case exits
for steps | #
    2 | just enough
    5 | more
p.elf program exit_in_two
stt_cli isa p.elf --steps {steps}
status 0
report
    x2 0010fff0
    x17 0000005d
    pc 00010008
    end exit 0 retired 2
"""
TOLD = "ok exits 2\n1 cases, 2 runs, 0 differ\n"
# what is wrong, the text that is changed and what stands in its place, and the line that is told
FAULTS = [
    ("a line that ends with a space", "status 0\n", "status 0 \n", 13),
    ("a tab", "    2 | just", "\t2 | just", 9),
    ("an indentation of three spaces", "    2 | just", "   2 | just", 9),
    ("a line before the first item", "# An exit in two steps.", "status 0", 1),
    ("a name in capitals", "case exits", "case Exits", 7),
    ("a name that is taken", "case exits", "program exit_in_two\n\ncase exits", 7),
    ("a word of seven digits", "05d00893 addi", "5d00893 addi", 4),
    ("a word with no instruction beside it", "00000073 ecall", "00000073", 5),
    ("a field in a program", "    00000073 ecall", "status 0", 5),
    ("a row with a cell too many", "    5 | more", "    5 | more | 7", 10),
    ("a table without a row", "    2 | just enough\n    5 | more\n", "", 8),
    ("a column that no line names", "steps | #", "steps | other", 8),
    ("a name that no column has", "{steps}", "{steps} {stops}", 12),
    ("a program that isn't there", "program exit_in_two\nstt", "program exit_in_three\nstt", 11),
    ("a step of a file that there isn't", "p.elf program", "p.elf programs", 11),
    ("two spaces between words", "isa p.elf", "isa  p.elf", 12),
    ("two commands", "status 0", "stt_cli isa\nstatus 0", 13),
    ("no command", "stt_cli isa p.elf --steps {steps}", "fails read {steps}", 7),
    ("two states", "status 0", "status 0\nstatus 0", 14),
    ("no status", "status 0\n", "", 7),
    ("a status that is no number", "status 0", "status none", 13),
    ("nothing that is wanted", GOOD[GOOD.index("report"):], "", 7),
    ("a text of no kind", "report", "out starts", 14),
    ("a text without a line", GOOD[GOOD.index("    x2"):], "", 7),
    ("a register twice", "    x17 0000005d", "    x2 0010fff0", 7),
    ("a line of no report", "    x17 0000005d", "    x32 0000005d", 7),
    ("registers in another order", "    x2 0010fff0\n    x17 0000005d", "    x17 0000005d\n    x2 0010fff0", 7),
    ("a report of registers alone", "    pc 00010008\n    end exit 0 retired 2\n", "", 7),
    ("puts that fail of no text", GOOD[GOOD.index("report"):], "each put fails\n", 14),
    ("puts that fail of a text's end", "report", "each put fails\nout ends", 14),
    ("puts that fail of two texts", "report", "each put fails\nout has\n    pc 00010008\nreport", 14),
    ("a line of no block", "status 0\n", "status 0\n    0\n", 14),
    ("a field that there isn't", "status 0", "state 0", 13),
    ("a change of what isn't there", "stt_cli", "d.toml description example\nd.toml change robs => rob\nstt_cli", 13),
    ("a change of what is there twice", "stt_cli", "d.toml description example\nd.toml change latency => delay\nstt_cli", 13),
    ("bytes behind the end", "stt_cli", "p.elf bytes 91 0000\nstt_cli", 12),
    ("a digit alone", "stt_cli", "p.elf bytes 0 0\nstt_cli", 12),
    ("a length that it has", "stt_cli", "p.elf length 92\nstt_cli", 12),
]
# what differs, and what is told of it
DIFFERENCES = [
    ("x17 0000005d", "x17 0000005c", "the output differs, line 18: wanted `x17 0000005c`, got `x17 0000005d`"),
    ("    end exit", "    mem 00010000 00\n    end exit", "line 34: wanted `mem 00010000 00`, got `end exit 0 retired 2`"),
    ("retired 2\n", "retired 2\n    end more\n", "line 35: wanted `end more`, got no line"),
    (GOOD[GOOD.index("report"):], "out ends\n    pc 00010009\n    end exit 0 retired 2\n", "line 33: wanted `pc 00010009`, got `pc 00010008`"),
    (GOOD[GOOD.index("report"):], "out has\n    pc 00010008\n    x2 0010fff0\n", "none of its further lines is `x2 0010fff0`"),
    (GOOD[GOOD.index("report"):], "out cut\n    pc 00010008\n", "line 1: wanted `pc 00010008`, got `x0 00000000`"),
    (GOOD[GOOD.index("report"):], "same isa q.elf --steps 2\n", "line 1: wanted no line, got `x0 00000000`"),
    (GOOD[GOOD.index("report"):], "same but cycles isa p.elf --steps 1\n", "line 33: wanted `pc 00010004`, got `pc 00010008`"),
    (GOOD[GOOD.index("status 0"):], "fails put 2\nstatus 7\nnote write\n", "line 1: wanted no line, got `x0 00000000`"),
    ("status 0", "status 1", "the status is 0, wanted 1"),
    ("status 0", "status 0\nnote words", "the note is ``, wanted `words\n`"),
]


def changed(old, new):
    assert GOOD.count(old) == 1, f"{old!r} isn't there once"
    return GOOD.replace(old, new)


class Stored(unittest.TestCase):
    def test_the_gate_reads_each_file(self):
        with open(os.path.join(CRATE, "args"), encoding="ascii") as file:
            self.assertEqual(file.read().splitlines(), sorted(os.listdir(os.path.join(CRATE, "data"))))

    def test_each_case_is_told_to_go_well(self):
        with open(os.path.join(CRATE, "stdout"), encoding="ascii") as file:
            told = file.read()
        wanted = []
        for name in sorted(os.listdir(os.path.join(CRATE, "data"))):
            with open(os.path.join(CRATE, "data", name), encoding="ascii") as file:
                wanted += [name, *re.findall(r"(?m)^case (\w+)$", file.read())]
        *lines, last = told.splitlines()
        self.assertEqual([re.sub(r"^ok (\w+) [1-9]\d*$", r"\1", line) for line in lines], wanted)
        cases = [line for line in lines if line.startswith("ok ")]
        self.assertEqual(last, f"{len(cases)} cases, {sum(int(line.split()[2]) for line in cases)} runs, 0 differ")


@unittest.skipUnless(os.path.exists(PROGRAM), f"{PROGRAM} isn't built")
class Built(unittest.TestCase):
    def run_on(self, *texts):
        with tempfile.TemporaryDirectory() as folder:
            names = [f"{number}.cases" for number in range(len(texts))]
            for name, text in zip(names, texts):
                with open(os.path.join(folder, name), "w", encoding="utf-8") as file:
                    file.write(text)
            done = subprocess.run([PROGRAM, *names], cwd=folder, capture_output=True, text=True, timeout=120)
            return done.returncode, done.stdout

    def test_a_file_is_read(self):
        self.assertEqual(self.run_on(GOOD), (0, "0.cases\n" + TOLD))

    def test_faults_are_told_with_their_lines(self):
        for what, old, new, line in FAULTS:
            with self.subTest(what):
                status, out = self.run_on(changed(old, new))
                self.assertEqual(status, 2)
                self.assertRegex(out, rf"\A0\.cases\n0\.cases: line {line}: [^\n]+\n\Z")

    def test_a_file_without_a_case_is_refused(self):
        for text in ("", "# nothing\n", GOOD[:GOOD.index("case")]):
            self.assertEqual(self.run_on(GOOD, text), (2, "0.cases\nok exits 2\n1.cases\n1.cases: there is no case in it\n"))

    def test_no_file_is_refused(self):
        self.assertEqual(self.run_on()[0], 2)
        done = subprocess.run([PROGRAM, "/nowhere.cases"], capture_output=True, text=True, timeout=120)
        self.assertEqual(done.returncode, 2)
        self.assertIn("/nowhere.cases: ", done.stdout)

    def test_differences_are_told(self):
        for old, new, told in DIFFERENCES:
            with self.subTest(new):
                status, out = self.run_on(changed(old, new))
                self.assertEqual(status, 1)
                self.assertIn(told, out)
                self.assertTrue(out.endswith("1 cases, 2 runs, 2 differ\n"))


if __name__ == "__main__":
    unittest.main()
