"""The programs of examples/crypto, as each compiler builds them: they put out what their standards have, also for other secrets, and what
README.md says of each secret is so: where it stands, and whether two of them have unequal traces."""
import functools
import hashlib
import os
import re
import shutil
import subprocess
import tempfile
import unittest

from elftools.elf.elffile import ELFFile

FOLDER = os.path.dirname(os.path.dirname(os.path.abspath(__file__)))
ROOT = os.path.dirname(os.path.dirname(FOLDER))
from wadrelwy import built_programs
from wadrelwy.verdict import simulator

PROGRAM = built_programs.simulator()
NEEDS = {"gcc": ("make", "riscv64-unknown-elf-gcc"), "clang": ("make", "clang", "ld.lld")}
LEVELS = ("O1", "O2")
ROW = r"^\| `(\w+)` \| `(key|secret)` \| (\d+) \| (hidden|shown) \| (hidden|shown) \|"
PUBLISHED = r"^\| `(\w+)` \| `(?:key|secret)`[^|]*\| [\d and]+ \| \d+(?:, [^|]*)? \|"
DESCRIPTIONS = [os.path.join(ROOT, "examples", f"large_{name}.toml") for name in ("unprotected", "passing", "futuristic", "hold")]
CYCLES = "100000000"
MERSENNE = 2**31 - 1
FIELD = 2**130 - 5
MODULUS = 3329
# a run of these takes more than a million cycles, so one pair of a compiler has to do
LONG = ("x25519",)


def read(name):
    with open(os.path.join(FOLDER, name), encoding="utf-8") as file:
        return file.read()


@functools.cache
def rows():
    """Of each program of README.md's first table: its secret's symbol and bytes, and the word for each compiler."""
    found = re.findall(ROW, read("README.md"), re.MULTILINE)
    return {name: (symbol, int(size), dict(zip(NEEDS, words))) for name, symbol, size, *words in found}


@functools.cache
def published():
    """The programs of the table of README.md, "What is published"."""
    return re.findall(PUBLISHED, read("README.md"), re.MULTILINE)


def vectors():
    return dict(line.split() for line in read("vectors.txt").splitlines() if line and not line.startswith("#"))


def missing(compiler):
    names = [name for name in NEEDS[compiler] if shutil.which(name) is None]
    return f"no {names[0]}: the programs of examples/crypto aren't built with {compiler}" if names else None


@functools.cache
def folder():
    folder.kept = tempfile.TemporaryDirectory()
    return folder.kept.name


def make(*words):
    return subprocess.run(["make", "-C", FOLDER, f"BUILD={folder()}", *words], capture_output=True, text=True, check=False)


@functools.cache
def built(compiler):
    """The folders of the images that this compiler builds, by level."""
    ended = make("-s", f"COMPILERS={compiler}")
    assert (ended.returncode, ended.stderr) == (0, ""), ended.stderr
    return {level: os.path.join(folder(), f"{compiler}-{level}") for level in LEVELS}


class Secret:
    """The secret of an image: where its bytes stand in memory and in the file."""

    def __init__(self, path, symbol):
        self.path = path
        with open(path, "rb") as file:
            elf = ELFFile(file)
            self.found = elf.get_section_by_name(".symtab").get_symbol_by_name(symbol)
            self.address, self.size = self.found[0]["st_value"], self.found[0]["st_size"]
            holders = [load for load in elf.iter_segments("PT_LOAD") if 0 <= self.address - load["p_vaddr"] < load["p_filesz"]]
            self.executable = any(load["p_flags"] & 1 for load in holders)
            self.at = self.address - holders[0]["p_vaddr"] + holders[0]["p_offset"]
            file.seek(0)
            self.image = file.read()

    def other(self, value):
        """The file of the same image with another secret."""
        path = os.path.join(folder(), "other.elf")
        with open(path, "wb") as file:
            file.write(self.image[:self.at] + value + self.image[self.at + self.size:])
        return path


def written(image):
    """What a run on the instruction set puts out, and how it ends."""
    *lines, last = simulator.run(PROGRAM, "isa", image, "--steps", CYCLES).splitlines()
    return b"".join(bytes.fromhex(line[4:]) for line in lines if line.startswith("out ")), last.split(" retired ")[0]


def poly1305(key, message):
    """The tag of a message, by numbers of any length."""
    place, total = int.from_bytes(key[:16], "little") & 0x0ffffffc0ffffffc0ffffffc0fffffff, 0
    for at in range(0, len(message), 16):
        total = (total + int.from_bytes(message[at:at + 16] + b"\1", "little")) * place % FIELD
    return (total + int.from_bytes(key[16:], "little") & 2**128 - 1).to_bytes(16, "little")


def rounded(secret):
    """The lowest bit of 2 x / 3329, to the nearest whole number, of each coefficient."""
    coefficients = [int.from_bytes(secret[at:at + 4], "little") for at in range(0, 16, 4)]
    return bytes((4 * x + MODULUS) // (2 * MODULUS) & 1 for x in coefficients)


TAG = bytes.fromhex("a8061dc1305136c6c22b8baf0c0127a9")
# what else than the program's own C tells the output for a secret
TELLS = {
    "ladder": lambda secret: pow(16807, int.from_bytes(secret, "little"), MERSENNE).to_bytes(4, "big"),
    "sha256": lambda secret: hashlib.sha256(secret).digest(),
    "poly1305": lambda secret: poly1305(secret, b"Cryptographic Forum Research Group"),
    "division": rounded,
    "division_by_product": rounded,
    "compare_constant_time": lambda secret: bytes((secret == TAG, secret == TAG[:15] + b"\xa8")),
    "compare_early_exit": lambda secret: bytes((secret == TAG, secret == TAG[:15] + b"\xa8")),
}
COEFFICIENTS = [0, 1, 831, 832, 833, 2495, 2496, 2497, 2498, 3328, 1664, 1665]


def others(name, size):
    """Other secrets of a program, of ordinary and of outermost values."""
    if name.startswith("division"):
        return [b"".join(x.to_bytes(4, "little") for x in COEFFICIENTS[at:at + 4]) for at in range(0, 12, 4)]
    near = [TAG[:15] + b"\xa8", b"\xa9" + TAG[1:]] if name.startswith("compare") else []
    return [bytes(size), b"\xff" * size, bytes(range(101, 101 + size)), *near]


@unittest.skipUnless(PROGRAM, "the program isn't built")
class Crypto(unittest.TestCase):
    def each_compiler(self):
        """Each compiler that is there, with the folders of its images; one that isn't is skipped with a word."""
        for compiler in NEEDS:
            with self.subTest(compiler=compiler):
                if missing(compiler):
                    self.skipTest(missing(compiler))
                yield compiler, built(compiler)

    def each_image(self):
        """Program, the word for its compiler, level, and the secret of each image."""
        for compiler, folders in self.each_compiler():
            for name, (symbol, _, words) in rows().items():
                for level, path in folders.items():
                    yield name, words[compiler], level, Secret(os.path.join(path, f"{name}.elf"), symbol)

    def test_tables(self):
        programs = sorted(name[:-2] for name in os.listdir(FOLDER) if name.endswith(".c"))
        self.assertEqual((len(rows()), len(published())), (11, 12))
        self.assertEqual(sorted([*rows(), *published()]), programs)
        self.assertEqual(sorted(vectors()), programs)

    def test_vectors(self):
        for compiler, _ in self.each_compiler():
            ended = make("-s", "test", f"COMPILERS={compiler}", f"STT_CLI={os.path.abspath(PROGRAM)}")
            self.assertEqual((ended.returncode, ended.stderr), (0, ""))
            self.assertEqual(ended.stdout.splitlines()[-1], f"{len(vectors()) * len(LEVELS)} images put out their vectors")

    def test_wrong_vector_is_told(self):
        wrong = os.path.join(folder(), "wrong.txt")
        with open(wrong, "w", encoding="utf-8") as file:
            file.write(read("vectors.txt").replace("3e345911", "3e345910"))
        for compiler, folders in self.each_compiler():
            image = os.path.join(folders["O2"], "ladder.elf")
            ended = make("-s", f"{image}.tested", f"VECTORS={wrong}", f"STT_CLI={os.path.abspath(PROGRAM)}")
            self.assertNotEqual(ended.returncode, 0)
            self.assertEqual(ended.stdout, f"{image}: wrote '3e345911', and the vector is '3e345910'\n")

    def test_nothing_stale(self):
        """An image is that of its header, options and Makefile as they are now; made of the same twice it is the same, byte by byte."""
        source, header = os.path.join(folder(), "stale.c"), os.path.join(folder(), "mine.h")
        with open(source, "w", encoding="utf-8") as file:
            file.write('#include "crypto.h"\n#include "mine.h"\nint main(void) { return VALUE + MORE; }\n')
        for compiler, folders in self.each_compiler():
            image, found = os.path.join(folders["O2"], "stale.elf"), []
            for value, more in [(1, 1), (2, 1), (2, 2), (1, 1)]:
                with open(header, "w", encoding="utf-8") as file:
                    file.write(f"#define VALUE {value}\n")
                ended = make("-s", image, f"VPATH={folder()}", f"EXTRA=-I{folder()} -I{FOLDER} -DMORE={more}")
                self.assertEqual((ended.returncode, ended.stderr), (0, ""))
                with open(image, "rb") as file:
                    found.append(file.read())
            self.assertEqual((len(set(found)), found[0] == found[3]), (3, True))

    def test_secrets(self):
        """The symbol, its bytes, and that they aren't code."""
        for name, _, _, secret in self.each_image():
            with self.subTest(image=secret.path):
                self.assertEqual((len(secret.found), secret.size), (1, rows()[name][1]))
                self.assertFalse(secret.executable)

    def test_other_secrets(self):
        """What is put out is a function of the secret, and the right one: no compiler has worked it out before the run."""
        for name, _, _, secret in self.each_image():
            for value in others(name, secret.size) if name in TELLS else ():
                with self.subTest(image=secret.path, value=value):
                    self.assertEqual(written(secret.other(value)), (TELLS[name](value), "end exit 0"))

    def test_traces(self):
        """Two secrets have unequal traces exactly where README.md says that the secret shows."""
        for name, word, level, secret in self.each_image():
            descriptions, values = DESCRIPTIONS, others(name, secret.size)
            if name in LONG:
                descriptions, values = DESCRIPTIONS[:level == "O2"], values[2:3]
            for description in descriptions:
                with self.subTest(image=secret.path, description=os.path.basename(description)):
                    unequal = [self.unequal(description, secret, value) for value in values]
                    self.assertEqual("shown" if any(unequal) else "hidden", word)

    def test_first_return(self):
        """README.md, "What C doesn't say": the branch behind a return shows, and doesn't where a stack predicts returns."""
        hold = os.path.join(ROOT, "examples", "large_futuristic_hold.toml")
        stack = os.path.join(folder(), "returns.toml")
        with open(hold, encoding="utf-8") as given, open(stack, "w", encoding="utf-8") as file:
            file.write(given.read().replace("[predictor]\n", "[predictor]\nreturns = 16\n"))
        for compiler, folders in self.each_compiler():
            if compiler == "gcc":
                secret = Secret(os.path.join(folders["O1"], "aes_bitsliced.elf"), "key")
                self.assertIsNotNone(self.unequal(hold, secret, bytes(16)))
                self.assertIsNone(self.unequal(stack, secret, bytes(16)))

    def unequal(self, description, secret, value):
        """The first unequal cycle of the traces with the image's own secret and with another; none where they are equal."""
        words = ("pair", description, secret.path, secret.other(value), "--cycles", CYCLES)
        return simulator.answer(simulator.run(PROGRAM, *words)).unequal


if __name__ == "__main__":
    unittest.main()
