"""The table of what each defence stops and costs: its text from answers made up here, and what holds of it with the built program."""
import os
import shutil
import unittest

import material
from material import needs_program, support

# what answers `pair` by the model and the defence of a description; `{spectre}` is the answer under spectre
STAND_IN = """#!/usr/bin/python3
import re, sys
if sys.argv[1] == "isa":
    print("end {end} retired 5")
    sys.exit(0 if "{end}".startswith("exit") else 1)
text = open(sys.argv[2]).read()
key = tuple(re.findall(r'^(?:model|defence) = "(\\w+)"', text, re.M))
assert sys.argv[1] == "pair" and sys.argv[5:] == ["--cycles", "500"], sys.argv
assert ("own" in sys.argv[3]) == ("rob = 24" in text), "the value that is set is for images of one's own"
said = {("off", "stt"): "premise yes\\nunequal 15\\nretired 5 cycles 20\\n", ("spectre", "stt"): "{spectre}",
        ("futuristic", "stt"): "premise no\\nunequal end\\nretired 5 cycles 30\\n",
        ("spectre", "hold"): "premise yes\\nequal\\nretired 5 cycles 19\\n", ("futuristic", "hold"): "premise no\\nequal\\nretired 5 cycles 20\\n",
        ("spectre", "delay"): "premise yes\\nequal\\nretired 5 cycles 33\\n", ("futuristic", "delay"): "premise no\\nequal\\nretired 5 cycles 40\\n"}
print(said[key], end="")
sys.exit(0 if "\\nequal" in said[key] else 1)
"""
HEADING = ["| Victim | Promised | `off` | `spectre` | `futuristic` | `spectre`, `hold` | `futuristic`, `hold` | `spectre`, `delay` | `futuristic`, `delay` |",
           "|---|---|---|---|---|---|---|---|---|"]


def stand_in(spectre, end="exit 0"):
    path = support.file_of("stand_in", STAND_IN.replace("{spectre}", spectre.replace("\n", "\\n")).replace("{end}", end).encode())
    os.chmod(path, 0o755)
    return path


def rows(told):
    """The cells of each victim's row, by its name."""
    return {cells[1].strip(" `"): [cell.strip() for cell in cells[2:-1]] for cells in (line.split("|") for line in told.splitlines()[2:])}


class Table(unittest.TestCase):
    def table(self, spectre, end="exit 0"):
        words = "--program", stand_in(spectre, end), "--compiler", "none", "--cycles", "500", "--only", "tainted_divisor"
        return material.command("defences", *words)

    def test_text(self):
        told = self.table("premise yes\nequal\nretired 5 cycles 20\n")
        row = ("| `tainted_divisor.s` | `spectre` | **unequal**, 20 | equal, 20 (+0) | **unequal**, 30 (+10) | equal, 19 (-1) | "
               "equal, 20 (+0) | equal, 33 (+13) | equal, 40 (+20) |")
        self.assertEqual((told.returncode, told.stdout.splitlines()[:3], told.stderr), (0, [*HEADING, row], ""))

    def test_other_ends(self):
        """A run that its budget or a trap ended is told as such, and never as one that costs nothing."""
        told = self.table("premise yes\nequal\nretired 4 cycles 500\n")
        row = ("| `tainted_divisor.s` | `spectre` | **unequal**, 20 | equal, cut at 500 | **unequal**, 30 (+10) | equal, 19 (-1) | "
               "equal, 20 (+0) | equal, 33 (+13) | equal, 40 (+20) |")
        self.assertEqual((told.returncode, told.stdout.splitlines()[2], told.stderr), (3, row, ""))
        self.assertIn("\n`cut at N`: the budget ended the run in cycle N.", told.stdout)
        told = self.table("premise yes\nequal\nretired 5 cycles 20\n", "trap 3 00010010")
        row = "| `tainted_divisor.s` | `spectre` | **unequal**, trap in 20 | equal, trap in 20 | **unequal**, trap in 30 | equal, trap in 19 | "
        self.assertEqual((told.returncode, told.stderr), (12, ""))
        self.assertTrue(told.stdout.splitlines()[2].startswith(row))
        self.assertNotIn("Faster", told.stdout)

    def test_images_of_ones_own(self):
        """A row for each pair under one description, in which a value is set; what is faster than without protection is explained."""
        one, two = support.file_of("own_1.elf", b"1"), support.file_of("own_2.elf", b"2")
        words = "--program", stand_in("premise yes\nequal\nretired 5 cycles 20\n"), "--cycles", "500", "--set", "core.rob=24"
        told = material.command("defences", one, two, two, two, *words)
        self.assertEqual((told.returncode, told.stderr), (0, ""))
        *table, _, why = told.stdout.splitlines()
        self.assertEqual([row.split("|")[1:5] for row in table[2:]], [
            [" `own_1` ", " `spectre` ", " **unequal**, 20 ", " equal, 20 (+0) "], [" `own_2` ", " no secret ", " 20 ", " 20 (+0) "]])
        self.assertIn("Faster than without protection: own_1, own_2. A branch on a wrong path", why)

    def test_a_promise_that_is_not_kept(self):
        told = self.table("premise yes\nunequal 3\nretired 5 cycles 20\n")
        self.assertEqual(told.returncode, 16)
        self.assertIn("tainted_divisor.s: traces that are proved equal aren't", told.stderr)

    def test_refusals(self):
        for words, note in [(["--program", "/nowhere"], "no simulator"), (["--assembly", support.example("bounds_check.s")], "no TOML text"),
                            (["--set", "core.rob=16,32"], "one value"), (["--set", "stt.model=off"], "the table has each"),
                            (["one.elf"], "images come in pairs")]:
            words = ["--compiler", "none", *(["--program", stand_in("")] if "/nowhere" not in words else []), *words]
            told = material.command("defences", *words)
            self.assertEqual(told.returncode, 2, words)
            self.assertIn(note, told.stderr)


@needs_program
class Victims(unittest.TestCase):
    # which of the traces are unequal, under off and then under each defence by spectre and by futuristic. Under off all are; under spectre a
    # fault's shadow, where all is visible at once, whatever the defence, and nothing is promised
    HIDDEN = [True] + [False] * 6
    ALL = ("bounds_check", "fault_shadow", "store_bypass", "tainted_store", "tainted_divisor", "target_injection")

    def told(self, *words, status=0):
        told = material.command("defences", *words)
        self.assertEqual((told.returncode, told.stderr), (status, ""))
        return {name: (promised, [cell.startswith("**unequal**") for cell in cells])
                for name, (promised, *cells) in rows(told.stdout.partition("\n\n")[0]).items()}

    def test_in_assembly(self):
        found = self.told("--compiler", "none", status=12)  # fault_shadow ends by its trap
        expected = {f"{name}.s": ("yes", self.HIDDEN) for name in self.ALL}
        expected["fault_shadow.s"] = ("`futuristic`", [True] + [True, False] * 3)
        self.assertEqual(found, expected)

    def test_rows_of_the_page(self):
        """docs/using.md, "Compare defences", has the rows of the victims in assembly as the command writes them."""
        page = material.read("docs", "using.md")
        written = material.command("defences", "--compiler", "none").stdout.partition("\n\n")[0].splitlines()
        self.assertEqual(len(written), 2 + len(self.ALL))
        self.assertIn("\n".join(written) + "\n", page)

    def test_without_passing(self):
        """Where no load passes a store, nothing can be shown by that."""
        found = self.told("--compiler", "none", "--only", "store_bypass", "--assembly", support.example("core_version_2.toml"))
        self.assertEqual(found, {"store_bypass.s": ("yes", [False] * 7)})

    @unittest.skipUnless(shutil.which("make") and shutil.which("riscv64-unknown-elf-gcc"), "no make or gcc for RISC-V")
    def test_in_c(self):
        """The two attacks in C show the key under off alone; the program that loads it shows it under each."""
        for name, expected in [("bounds_check.c", ("yes", self.HIDDEN)), ("store_bypass.c", ("yes", self.HIDDEN)), ("table.c", ("no", [True] * 7))]:
            self.assertEqual(self.told("--only", name), {name: expected})
        self.assertEqual(self.told("--only", "aliases.c"), {"aliases.c": ("no secret", [False] * 7)})


if __name__ == "__main__":
    unittest.main()
