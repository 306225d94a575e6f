"""The words of the programs of tests and cases (`crates/core_tests/src/programs.rt`, `crates/case_runs/data`) are the instructions that stand beside
them, one program has one name, and stored images of the same names have their code."""
import glob
import os
import re
import shutil
import subprocess
import tempfile
import unittest

from wadrelwy.riscv.assembly import text
from wadrelwy.view.image import Image

ROOT = os.path.dirname(os.path.dirname(os.path.dirname(os.path.dirname(os.path.realpath(__file__)))))
SOURCE = os.path.join(ROOT, "crates", "core_tests", "src", "programs.rt")
CASES = sorted(glob.glob(os.path.join(ROOT, "crates", "case_runs", "data", "*.cases")))
TOOLS = all(shutil.which(f"riscv64-unknown-elf-{name}") for name in ("as", "objcopy"))
CODE = 0x00010000

# a program, with its length and lines; a word, with what stands beside it
PROGRAM = re.compile(r"^pub const (\w+): \[u32; (\d+)\] = \[\n(.*?)^\];$", re.MULTILINE | re.DOTALL)
WORD = re.compile(r"    0x([0-9a-f]{4})_([0-9a-f]{4}), // (.*)")
# a program of a file of cases, with its lines; a word there; a table of words, with its rows, in whose second column a remark stands
CASE_PROGRAM = re.compile(r"^program (\w+)\n((?:    .*\n)*)", re.MULTILINE)
CASE_WORD = re.compile(r"    ([0-9a-f]{8}) (.*)")
CASE_TABLE = re.compile(r"^for word \| # (?:\|.*)?\n((?:    .*\n)*)", re.MULTILINE)
NO_INSTRUCTION = "no instruction"

# the images whose code is a program's, by the programs' names
IMAGES = {
    "bounds_check": ["bounds_check", "bounds_check_other"], "fault_shadow": ["fault_shadow"], "store_bypass": ["store_bypass"],
    "tainted_divisor": ["tainted_divisor"], "tainted_store": ["tainted_store"], "target_injection": ["target_injection"],
}


def content(path):
    with open(path, encoding="utf-8") as file:
        return file.read()


def words_of(name, pattern, lines):
    """Words, each with what stands beside it; every line has one."""
    words = [pattern.fullmatch(line) for line in lines.splitlines()]
    assert all(words), f"{name}: a line isn't a word and its instruction"
    return [(int("".join(groups[:-1]), 16), groups[-1]) for groups in map(re.Match.groups, words)]


def tested_programs():
    """Of each program of the crate its name, in small letters, and its words."""
    for name, length, lines in PROGRAM.findall(content(SOURCE)):
        words = words_of(name, WORD, lines)
        assert len(words) == int(length), f"{name}: the number of words is wrong"
        yield name.lower(), words


def case_programs():
    """Of each program of the files of cases its name and its words, as often as it stands there."""
    for path in CASES:
        for name, lines in CASE_PROGRAM.findall(content(path)):
            yield name, words_of(name, CASE_WORD, lines)


def tables():
    """Of each table of words in the files of cases its words, each with the remark beside it."""
    for path in CASES:
        for rows in CASE_TABLE.findall(content(path)):
            cells = [[cell.strip() for cell in row.split("|")] for row in rows.splitlines()]
            yield os.path.basename(path), [(int(word, 16), remark) for word, remark, *_ in cells]


def programs():
    """Of each program its words, by its name, which no other program has."""
    read = {}
    for name, words in [*tested_programs(), *case_programs()]:
        assert read.setdefault(name, words) == words, f"{name}: two programs have this name"
    return read


def beside(word):
    """What has to stand beside a word."""
    return NO_INSTRUCTION if text(word).endswith(NO_INSTRUCTION) else text(word)


def for_assembler(word, instruction):
    """A line for the assembler: targets of branches and jumps, which are distances, are told from the line itself."""
    return f".word {word}" if instruction == NO_INSTRUCTION else re.sub(r"^((?:b|jal ).*,)([+-]\d+)$", r"\1.\2", instruction)


def assembled(lines):
    """The words that GNU as makes of the lines."""
    with tempfile.TemporaryDirectory() as folder:
        made, code = os.path.join(folder, "made.o"), os.path.join(folder, "code")
        subprocess.run(["riscv64-unknown-elf-as", "-march=rv32im", "-mabi=ilp32", "-o", made, "-"], input="\n".join(lines) + "\n", text=True,
                       check=True)
        subprocess.run(["riscv64-unknown-elf-objcopy", "-O", "binary", made, code], check=True)
        with open(code, "rb") as file:
            data = file.read()
    return [int.from_bytes(data[at:at + 4], "little") for at in range(0, len(data), 4)]


class ProgramWords(unittest.TestCase):
    def test_each_program_is_read(self):
        constants = [name.lower() for name in re.findall(r"\bconst (\w+)", content(SOURCE))]
        self.assertEqual([name for name, _ in tested_programs()], constants)
        heads = [name for path in CASES for name in re.findall(r"(?m)^program (.*)$", content(path))]
        self.assertEqual([name for name, _ in case_programs()], heads)

    def test_instructions_stand_beside_their_words(self):
        for name, words in [*programs().items(), *tables()]:
            with self.subTest(name):
                self.assertEqual([instruction for _, instruction in words], [beside(word) for word, _ in words])

    @unittest.skipUnless(TOOLS, "no riscv64-unknown-elf-as or riscv64-unknown-elf-objcopy (Debian: binutils-riscv64-unknown-elf)")
    def test_an_assembler_makes_the_words(self):
        for name, words in [*programs().items(), *tables()]:
            with self.subTest(name):
                self.assertEqual(assembled([for_assembler(*each) for each in words]), [word for word, _ in words])

    def test_stored_images_have_these_words(self):
        read = programs()
        for name, images in IMAGES.items():
            wanted = {CODE + 4 * index: word for index, (word, _) in enumerate(read[name])}
            for image in images:
                with self.subTest(image):
                    self.assertEqual(Image(os.path.join(ROOT, "examples", f"{image}.elf")).words, wanted)

    def test_each_stored_image_is_looked_at(self):
        stored = [os.path.basename(path).removesuffix(".elf") for path in glob.glob(os.path.join(ROOT, "examples", "*.elf"))]
        self.assertEqual(sorted(stored), sorted(image for images in IMAGES.values() for image in images))


if __name__ == "__main__":
    unittest.main()
