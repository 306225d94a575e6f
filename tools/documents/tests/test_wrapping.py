"""Comments filled at 120 columns: over small texts, and over the sources of this repository."""
import os
import unittest

HERE = os.path.dirname(os.path.abspath(__file__))
import wrapping

CRATES = os.path.join(os.path.dirname(os.path.dirname(os.path.dirname(HERE))), "crates")
LONG = " ".join(["word"] * 30)


class Filled(unittest.TestCase):
    def test_a_long_paragraph(self):
        for before in ("//", "    ///", "//!", "--", "  --"):
            with self.subTest(before):
                lines = wrapping.wrapped(f"{before} {LONG}\n{before} the end\ncode").split("\n")
                self.assertEqual(lines[-1], "code")
                self.assertTrue(all(line.startswith(f"{before} ") and len(line) <= 120 for line in lines[:-1]))
                self.assertEqual(" ".join(line[len(before) + 1:] for line in lines[:-1]), f"{LONG} the end")
                self.assertEqual(len(lines), 3)

    def test_what_stays(self):
        for text in (f"// {LONG[:100]}\n// short\n", f"let x = 1; // {LONG}\n", f"// - {LONG}\n", f"//   {LONG}\n", f"/// | {LONG} |\n", f"-- ---- {LONG}\n"):
            with self.subTest(text):
                self.assertEqual(wrapping.wrapped(text), text)
                self.assertEqual(wrapping.long_lines(text), [])

    def test_paragraphs_stay_apart(self):
        text = f"/// {LONG}\n///\n/// short\n    /// another\n"
        self.assertEqual(wrapping.wrapped(text).split("\n")[2:], ["///", "/// short", "    /// another", ""])

    def test_long_lines_are_told(self):
        self.assertEqual(wrapping.long_lines(f"// short\n// {LONG}\n"), [2])


class ThisRepository(unittest.TestCase):
    def test_comments_are_filled(self):
        for path in wrapping.sources(CRATES):
            with open(path, encoding="utf-8") as file:
                self.assertEqual(wrapping.long_lines(file.read()), [], path)


if __name__ == "__main__":
    unittest.main()
