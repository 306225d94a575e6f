"""The blocks that are made from the crates' own words: over a small tree that is made here."""
import os
import tempfile
import unittest

import crate_docs

LOW = """//! Numbers: twice and
//! thrice. More of them stands elsewhere.
//!
//! How they are counted.
//!
//! Rules: `specs/Low.antt`, of numbers, `Twice.antt` | and more; `docs/page.md`.
//!
//! Promises: twice is twice.
//!
//! Clauses: `twice`, `Two::of`.
#![tactic(auto)]

pub fn twice(n: u32) -> u32 {
    n + n // thrice
}

impl Two {
    pub fn of() {}
}
"""
HIGH = """//! The program.
//!
//! Rules: none.
use low::twice;
"""
CRATES = "# What each crate stands on: NAME: LIBRARY ..\n\n# The ground\nlow:\n\n# The top\nhigh staticlib: low\n"
DOCUMENT = "# A page\n\n<!-- tools/documents/map: {0} -->\nold\n<!-- end of {0} -->\n\nThe end.\n"


class SmallTree(unittest.TestCase):
    """A tree of two crates, whose documents are made until a test changes something."""

    def setUp(self):
        folder = tempfile.TemporaryDirectory()
        self.addCleanup(folder.cleanup)
        self.addCleanup(setattr, crate_docs, "TOP", crate_docs.TOP)
        crate_docs.TOP = folder.name
        self.write("crates.txt", CRATES)
        self.write("crates/low/src/lib.rt", LOW)
        self.write("crates/low/specs/Low.antt", "")
        self.write("crates/low/specs/Twice.antt", "")
        self.write("crates/high/src/main.rt", HIGH)
        for name, (document, _) in crate_docs.BLOCKS.items():
            self.write(document, DOCUMENT.format(name))
        self.assertEqual(crate_docs.write_blocks(), [])

    def write(self, name, text):
        path = os.path.join(crate_docs.TOP, name)
        os.makedirs(os.path.dirname(path), exist_ok=True)
        with open(path, "w", encoding="utf-8") as file:
            file.write(text)

    def test_a_made_tree(self):
        self.assertEqual(crate_docs.wrong_blocks(), [])
        self.assertIn("\n| **The top** | | |\n| `high` | The program | none |\n| **The ground** | | |\n"
                      "| `low` | Numbers: twice and thrice | `specs/Low.antt`, of numbers, `Twice.antt` \\| and more; `docs/page.md` |\n"
                      "<!-- end of map -->\n\nThe end.\n", crate_docs.read("docs/architecture.md"))
        self.assertIn("\n| `low` | twice is twice | `twice`, `Two::of` |\n<!-- end", crate_docs.read("docs/parts.md"))
        self.assertIn("\nThe tree has 2 crates in 2 layers.\n", crate_docs.read("README.md"))

    def test_what_a_crate_says_is_in_the_documents_only_once_they_are_made(self):
        self.write("crates/high/src/main.rt", HIGH.replace("The program", "A program"))
        self.assertEqual(crate_docs.wrong_blocks(), ["docs/architecture.md: its block `map` isn't as `tools/documents/map --write` writes it"])
        crate_docs.write_blocks()
        self.assertEqual(crate_docs.wrong_blocks(), [])
        self.assertIn("| `high` | A program | none |", crate_docs.read("docs/architecture.md"))

    def test_what_a_crate_has_to_say(self):
        root = "crates/low/src/lib.rt"
        cases = [
            ("//! Numbers: twice and\n//! thrice. More of them stands elsewhere.\n//!\n//! How they are counted.\n//!\n", "",
             f"{root}: its documentation has no first sentence"),
            ("//! Rules: ", "//! ", f"{root}: its documentation has no line Rules:"),
            ("//! Clauses: ", "//! ", f"{root}: it has one of the lines Promises: and Clauses: alone"),
            ("`specs/Low.antt`", "`specs/Gone.antt`", f"{root}: names specs/Gone.antt, which isn't there"),
            ("`Twice.antt`", "`Thrice.antt`", f"{root}: names Thrice.antt, which isn't there"),
            ("`twice`, `Two::of`", "`thrice`", f"{root}: names thrice, which its sources don't have"),
        ]
        for before, behind, wanted in cases:
            with self.subTest(wanted=wanted):
                self.assertIn(before, LOW)
                self.write(root, LOW.replace(before, behind))
                self.assertEqual(crate_docs.wrong_crates(crate_docs.crates()), [wanted])

    def test_a_crate_that_nothing_names(self):
        self.write("crates/spare/src/lib.rt", HIGH)
        self.assertEqual(crate_docs.wrong_blocks(), ["crates/spare: crates.txt doesn't name it"])

    def test_a_block_that_is_gone(self):
        self.write("docs/parts.md", "# A page\n")
        told = ["docs/parts.md: has no block `parts`"]
        self.assertEqual(crate_docs.wrong_blocks(), told)
        self.assertEqual(crate_docs.write_blocks(), told)
        self.assertEqual(crate_docs.read("docs/parts.md"), "# A page\n")


class ThisRepository(unittest.TestCase):
    def test_nothing_is_found(self):
        self.assertEqual(crate_docs.wrong_blocks(), [])


if __name__ == "__main__":
    unittest.main()
