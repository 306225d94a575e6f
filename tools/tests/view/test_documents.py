"""The samples of docs/view.md are what the commands write, and docs/pictures is what tools/pictures draws."""
import os
import re
import subprocess
import sys
import tempfile
import unittest

import support
from wadrelwy.view.disassembly import MANUAL, Disassembler
from wadrelwy.view.image import Image

PICTURES = os.path.join(support.ROOT, "docs", "pictures")
NO_OBJDUMP = None if Disassembler(Image(support.example("bounds_check.elf")), MANUAL).by == "objdump" else "no objdump for RISC-V"


def samples():
    """The commands of the page and what stands below each."""
    with open(os.path.join(support.ROOT, "docs", "view.md"), encoding="utf-8") as file:
        lines = file.read().splitlines()
    for number, line in enumerate(lines):
        if line.startswith("    $ "):
            below = lines[number + 1:]
            end = next(place for place, text in enumerate(below) if text and not text.startswith("    "))
            yield line[6:].split(), "\n".join(text[4:] for text in below[:end]).rstrip().splitlines()


def traces():
    """The traces that the page makes, from the worked ones."""
    spectre = support.worked_trace("Fault shadow")
    made = {"bounds": support.worked_trace("Bounds check bypass"), "spectre": spectre,
            "futuristic": [*spectre[:15], "16 done:4\n", *spectre[16:]]}
    return {f"{name}.trace": support.file_of(f"{name}.trace", "".join(lines).encode()) for name, lines in made.items()}


@unittest.skipIf(NO_OBJDUMP, NO_OBJDUMP)
class Page(unittest.TestCase):
    def test_samples(self):
        files = traces()
        found = list(samples())
        self.assertEqual([command[2] for command, _ in found], ["why", "stack", "stats", "annotate", "diff"])
        for command, below in found:
            words = [sys.executable, support.TOOL, *(files.get(word, word) for word in command[1:])]
            answer = support.answer(subprocess.run(words, capture_output=True, text=True, cwd=support.ROOT, timeout=60))
            self.assertEqual((answer.stdout.splitlines(), answer.stderr), (below, ""))


@unittest.skipIf(support.NO_PROGRAM, support.NO_PROGRAM)
@unittest.skipIf(NO_OBJDUMP, NO_OBJDUMP)
class Drawn(unittest.TestCase):
    def test_they_are_drawn_as_they_stand(self):
        with tempfile.TemporaryDirectory() as folder:
            command = [sys.executable, os.path.join(support.ROOT, "tools", "pictures"), folder, "--program", support.PROGRAM]
            subprocess.run(command, check=True, capture_output=True, timeout=120)
            self.assertEqual(sorted(os.listdir(folder)), sorted(os.listdir(PICTURES)))
            for name in os.listdir(folder):
                with open(os.path.join(folder, name), "rb") as drawn, open(os.path.join(PICTURES, name), "rb") as stored:
                    self.assertEqual(drawn.read(), stored.read(), name)


class Pictures(unittest.TestCase):
    def test_each_picture_that_the_page_names_is_there(self):
        with open(os.path.join(support.ROOT, "docs", "view.md"), encoding="utf-8") as file:
            names = set(re.findall(r"\(pictures/(\w+\.svg)\)", file.read()))
        self.assertGreaterEqual(names, {"fault_shadow.svg", "stack.svg"})
        self.assertLessEqual(names, set(os.listdir(PICTURES)))
