"""The victims of examples/c: the verdict of each is that of the table of examples/c/README.md, compiler by compiler."""
import functools
import glob
import os
import re
import shutil
import subprocess
import tempfile
import textwrap
import unittest

import material  # finds the modules below
from wadrelwy import built_programs
from material import needs_program, support
from wadrelwy.verdict import report

FOLDER = support.example("c")
COMPILERS = {"gcc": ("riscv64-unknown-elf-gcc",), "clang": ("clang", "ld.lld")}
BUILT = []
DESCRIPTIONS = ("medium.toml", "medium_futuristic.toml")
ROW = r"^\| (?:`(\w+)`)? ?\| `(\w+\.toml)` \| (\w+) \|"


def table():
    """Victim, compiler and verdict of each row and column."""
    rows = re.findall(r"^\| `(\w+)` \| (\w+) \| (\w+) \|", material.read("examples", "c", "README.md"), re.MULTILINE)
    return [(name, compiler, word) for name, *words in rows for compiler, word in zip(COMPILERS, words)]


def attacks():
    """Victim, description and verdict of the second table; a cell that is empty has what stands above it."""
    found, victim = [], None
    for name, description, word in re.findall(ROW, material.read("examples", "c", "README.md"), re.MULTILINE):
        victim = name or victim
        found.append((victim, description, word))
    return found


def missing(compiler):
    names = [name for name in ("make", *COMPILERS[compiler]) if shutil.which(name) is None]
    return f"no {names[0]}: the victims aren't built with {compiler}" if names else None


@functools.cache
def built(compiler):
    """The folder with the victims that this compiler builds; it stays till the tests end."""
    BUILT.append(tempfile.TemporaryDirectory())
    subprocess.run(["make", "-C", FOLDER, compiler, f"BUILD={BUILT[-1].name}"], check=True, capture_output=True)
    return os.path.join(BUILT[-1].name, compiler)


@needs_program
@unittest.skipIf(support.NO_IMAGES, support.NO_IMAGES)
class Victims(unittest.TestCase):
    def each_compiler(self):
        """The folder of each compiler's victims; one that isn't there is skipped with a word."""
        for compiler in COMPILERS:
            with self.subTest(compiler=compiler):
                if missing(compiler):
                    self.skipTest(missing(compiler))
                yield compiler, built(compiler)

    def test_verdicts(self):
        for compiler, folder in self.each_compiler():
            cases = [(name, word) for name, by, word in table() if by == compiler]
            self.assertEqual(len(cases), 10)
            for name, word in cases:
                for description in DESCRIPTIONS:
                    self.verdict(folder, name, description, word)

    def test_attacks_where_loads_pass_stores(self):
        self.assertEqual(len(attacks()), 6)
        for _, folder in self.each_compiler():
            for name, description, word in attacks():
                self.verdict(folder, name, description, word)

    def verdict(self, folder, name, description, word):
        if word in ("certified", "exposed") and built_programs.secrets() is None:
            word = "same"
        images = [os.path.join(folder, f"{name}_{secret}.elf") for secret in "ab"]
        with self.subTest(victim=name, description=description):
            told = material.command("verdict", support.example(description), *images)
            self.assertEqual((told.stderr, told.returncode), ("", report.STATUS[word]))
            self.assertIn(f"\nverdict       {word}: ", told.stdout)

    def test_sample_of_the_page(self):
        """The verdict that docs/using.md shows is what the command writes for gcc's table lookup."""
        if missing("gcc"):
            self.skipTest(missing("gcc"))
        page = material.read("docs", "using.md")
        sample = re.search(r"^ +description .*?\n +verdict .*?\n", page, re.MULTILINE | re.DOTALL).group()
        folder = built("gcc")
        told = material.command("verdict", support.example("medium.toml"), *(f"{folder}/table_{secret}.elf" for secret in "ab")).stdout
        told = told.replace(folder, "examples/c/build/gcc").replace(support.example("medium.toml"), "examples/medium.toml")
        sample = textwrap.dedent(sample)
        if built_programs.secrets() is None:
            sample, told = (re.sub(r"(?m)^one run .*\n", "", text) for text in (sample, told))
        self.assertEqual(sample, told)

    def test_lines_of_the_source(self):
        """An image with line numbers has file and line in what shows: here the line of the table that is looked up, or the brace behind."""
        if missing("gcc"):
            self.skipTest(missing("gcc"))
        with tempfile.TemporaryDirectory() as folder:
            images = [f"{folder}/gcc/table_{secret}.elf" for secret in "ab"]
            subprocess.run(["make", "-C", FOLDER, f"BUILD={folder}", *images, "EXTRA=-g"], check=True, capture_output=True)
            told = material.command("verdict", support.example("medium.toml"), *images).stdout
        number = material.read("examples", "c", "table.c").splitlines().index("  return box[place];") + 1
        self.assertRegex(told, rf"(?m)^shown .*<lookup\+0x8> table.c:({number}|{number + 1}): its access, 1 time")

    def test_runs(self):
        """Each victim's run on the instruction set is the simulator's."""
        for _, folder in self.each_compiler():
            paths = glob.glob(os.path.join(folder, "*.elf"))
            self.assertEqual(len(paths), 24)
            for path in paths:
                words = path, 100000, support.example(DESCRIPTIONS[0])
                self.assertEqual(material.own_report(*words), material.isa_report(*words), path)

    def test_aliases(self):
        """Where no load passes a store none is violated; else two are, each once, and then they wait; and the run is shorter."""
        for _, folder in self.each_compiler():
            image, counts = os.path.join(folder, "aliases.elf"), []
            for name in ("large.toml", "large_passing.toml"):
                files = image, support.example(name)
                run, _, items = support.replay(support.trace_of(files[1], image, 100000), *files)
                self.assertEqual((run.trace.end.how.split()[0], run.reasons.unexplained), ("exit", []))
                violated = [item.pc for item in items if item.violated]
                passed = sum(item.passed for item in items)
                counts.append((len(violated), len(set(violated)), passed > 0, run.trace.end.cycles))
            self.assertEqual([count[:3] for count in counts], [(0, 0, False), (2, 2, True)])
            self.assertLess(counts[1][3], counts[0][3])

    def test_output(self):
        for _, folder in self.each_compiler():
            told = material.isa_report(os.path.join(folder, "hello.elf"), 100000)
            self.assertTrue(told.startswith("out 68656c6c6f0a\n"), told[:40])
            self.assertRegex(told, r"\nend exit 7 retired \d+\n$")


if __name__ == "__main__":
    unittest.main()
