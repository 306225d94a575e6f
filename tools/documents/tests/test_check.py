"""Tests of tools/documents/check: over a small tree that is made here, and over this repository."""
import importlib.machinery
import importlib.util
import os
import tempfile
import unittest

HERE = os.path.dirname(os.path.abspath(__file__))


def load():
    loader = importlib.machinery.SourceFileLoader("documents_check", os.path.join(HERE, "..", "check"))
    module = importlib.util.module_from_spec(importlib.util.spec_from_loader("documents_check", loader))
    loader.exec_module(module)
    return module


PAGE = "# A page\n\n## The parts\n\nA crate.\n\n## The end\n\nNothing.\n"


class SmallTree(unittest.TestCase):
    """A tree whose documents are right until a test changes one."""

    def setUp(self):
        self.check = load()
        folder = tempfile.TemporaryDirectory()
        self.addCleanup(folder.cleanup)
        self.check.TOP = folder.name
        os.mkdir(os.path.join(folder.name, "docs"))
        for name in ("README.md", "docs/parts.md"):
            self.write(name, PAGE)

    def write(self, name, text):
        with open(os.path.join(self.check.TOP, name), "w", encoding="utf-8") as file:
            file.write(text)

    def test_a_right_tree(self):
        self.assertEqual(self.check.found(), [])

    def test_names_of_files_and_headings(self):
        cases = [
            ("see `crates/low/src/lib.rt`", ["README.md: names crates/low/src/lib.rt, which isn't there"]),
            ("the program is `crates/low/out/low`", []),
            ("`docs/parts.md`, \"The\nparts\" has it", []),
            ("`docs/parts.md`, \"The part\" has it",
             ["README.md: refers to docs/parts.md, \"The part\", and there is no such heading"]),
            ("## The end", ["README.md: has two headings \"The end\""]),
            ("a line\n" * 170, ["README.md has 180 lines, more than 170"]),
        ]
        for more, wanted in cases:
            with self.subTest(more=more[:40]):
                self.write("README.md", PAGE + more + "\n")
                self.assertEqual(self.check.found(), wanted)


class ThisRepository(unittest.TestCase):
    def test_nothing_is_found(self):
        self.assertEqual(load().found(), [])


if __name__ == "__main__":
    unittest.main()
