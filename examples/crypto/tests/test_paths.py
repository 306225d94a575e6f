"""What docs/secrets.md, "Ask of every core that delays", says of each program: by one run of the instruction set, at -O2 by each compiler that is
there, and at -O3 of the one of which clang once made a branch."""
import os
import re
import subprocess
import unittest

from test_crypto import FOLDER, NEEDS, ROOT, folder, make, missing
from wadrelwy import built_programs
from wadrelwy.verdict import certifying
from wadrelwy.view.image import Image

SECRETS = built_programs.secrets()
STEPS = "4294967295"
ROW = r"^\| ((?:`\w+`[^|`]*)+) \| ([^|]*) \| ([^|]*) \|$"
SYMBOLS = ("key", "secret")
OTHER_LEVEL = {"ed25519": ("2", "3")}


def table():
    """Of each program what is said of every key, and of every key that publishes the same, and the value with which it exits."""
    with open(os.path.join(ROOT, "docs", "secrets.md"), encoding="utf-8") as file:
        section = file.read().split("\n## Ask of every core that delays\n")[1].split("\n## ")[0]
    found = re.findall(ROW, section.split("| Program | Every key |")[1], re.MULTILINE)
    return {name: (*cells, value or "0") for names, *cells in found for name, value in re.findall(r"`(\w+)`(?: \(exit (\d+)\))?", names)}


def said(cell, compiler):
    """`hidden`, or what shows, of a cell as `8, 4 bytes`, ``0: `branch` `` or ``4, those of gcc; clang: `branch` ``."""
    count = int(cell.split(",")[0].split(":")[0])
    return "hidden" if count == 8 or count and f"those of {compiler}" in cell else re.search(r"`(\w+)`", cell)[1]


def read_answer(status, text, value):
    """The first word, or what shows, and how many bytes are published. Where nothing shows the run exits with this value, as the page counts it:
    of one that a trap or the budget ended nothing is claimed."""
    shown = re.fullmatch(r"shown \d+ (access|division|branch|call) [0-9a-f]{8}\n", text)
    if shown:
        assert status == 1, (status, text)
        return shown[1], None
    hidden = re.fullmatch(rf"hidden\n(?:published (\d+)\n)?end exit {value} retired \d+\n", text)
    assert hidden and status == 0, (status, text)
    return "hidden", hidden[1] and int(hidden[1])


class Answers(unittest.TestCase):
    def test_what_is_claimed(self):
        self.assertEqual(read_answer(0, "hidden\nend exit 0 retired 9\n", "0"), ("hidden", None))
        self.assertEqual(read_answer(0, "hidden\npublished 4\nend exit 1 retired 9\n", "1"), ("hidden", 4))
        self.assertEqual(read_answer(1, "shown 8 branch 00010000\n", "0"), ("branch", None))

    def test_what_is_none(self):
        for status, text in ((0, "hidden\nend trap 5 00010000 retired 9\n"), (3, "hidden\nend budget retired 4294967295\n"),
                             (0, "hidden\nend exit 1 retired 9\n"), (3, "hidden\nend exit 0 retired 9\n"), (0, "hidden\nend exit 0 retired 9"),
                             (0, "hidden\n"), (0, "shown 8 branch 00010000\n"), (1, "shown 8\n"), (0, "")):
            with self.subTest(text, status=status), self.assertRaises(AssertionError):
                read_answer(status, text, "0")


@unittest.skipUnless(SECRETS, "the program stt_secrets isn't built")
class Paths(unittest.TestCase):
    def answer(self, path, value, *words):
        """What the program answers, and what it publishes."""
        named = [word for each in certifying.secrets_of(Image(path), SYMBOLS) for word in ("--secret", each)]
        ended = subprocess.run([SECRETS, path, *named, *words, "--steps", STEPS], capture_output=True, text=True, check=False)
        self.assertEqual(ended.stderr, "")
        return read_answer(ended.returncode, ended.stdout, value)

    def test_programs(self):
        self.assertEqual(sorted(table()), sorted(name[:-2] for name in os.listdir(FOLDER) if name.endswith(".c")))

    def test_table(self):
        for compiler in NEEDS:
            with self.subTest(compiler=compiler):
                if missing(compiler):
                    self.skipTest(missing(compiler))
                for name, cells in table().items():
                    for level in OTHER_LEVEL.get(name, ("2",)):
                        self.check(compiler, level, name, *cells)

    def check(self, compiler, level, name, every, publishing, value):
        """What the table says of a program is what the built one answers."""
        path = os.path.join(folder(), f"{compiler}-O{level}", f"{name}.elf")
        ended = make("-s", path)
        self.assertEqual((ended.returncode, ended.stderr), (0, ""))
        with self.subTest(name=name, level=level):
            self.assertEqual(self.answer(path, value)[0], said(every, compiler))
            word, count = self.answer(path, value, "--public-stream", "2")
            self.assertEqual(word, said(publishing, compiler))
            bytes_told = re.search(r"(\d+) bytes", publishing)
            if word == "hidden":
                self.assertEqual(count, int(bytes_told[1]) if bytes_told else 0)


if __name__ == "__main__":
    unittest.main()
