"""Tests of tools/documents/believed: over a small tree of definitions, and over this repository."""
import contextlib
import importlib.machinery
import importlib.util
import io
import os
import sys
import tempfile
import unittest

HERE = os.path.dirname(os.path.abspath(__file__))
TOP = os.path.dirname(os.path.dirname(os.path.dirname(HERE)))


def load():
    loader = importlib.machinery.SourceFileLoader("documents_believed", os.path.join(HERE, "..", "believed"))
    module = importlib.util.module_from_spec(importlib.util.spec_from_loader("documents_believed", loader))
    loader.exec_module(module)
    return module


LOW = """-- Numbers.
use Rattle.std.specs.Prelude.{ℕ, ◌+◌}

-- twice a number
abbrev pub twice : ℕ → ℕ
twice n = n + n

-- three times a number
abbrev pub thrice : ℕ → ℕ
thrice n = twice n + n

-- a pair
pub record Two : Type 0 where
  -- the first
  pub one : ℕ

  pub two : ℕ
"""
HIGH = """-- A promise.
use Rattle.low.specs.Low.{thrice as three}
use Rattle.low.specs.Low as low

-- what is promised
abbrev pub Promise : low.Two → ℕ → Type 0
Promise p n = three p.one ≡ n
"""
TOP_CALL = """ghost use Rattle.high.specs.High.{Promise};

pub fn top(n: u32) -> u32
    requires { n.now < 3 }
    ensures promise { Promise (pair n.now)
        result }
{
    n
}
"""
LAW = """ghost use Rattle.low.specs.Low.{
  told,
  twice,
};

pub fn law()
    ensures { (n : ℕ) → told n ≡ n }
{}
"""

OTHER_LAW = """
pub fn other()
    ensures { twice 1 ≡ 2 }
{}
"""
TOLD = """
-- one that a law tells of
abbrev pub told : ℕ → ℕ
told n = n
"""


class SmallTree(unittest.TestCase):
    def setUp(self):
        self.believed = load()
        folder = tempfile.TemporaryDirectory()
        self.addCleanup(folder.cleanup)
        self.believed.TOP = folder.name
        files = (("low/specs/Low.antt", LOW), ("high/specs/High.antt", HIGH), ("high/src/lib.rt", TOP_CALL), ("law/src/lib.rt", LAW))
        for path, text in files:
            path = os.path.join(folder.name, "crates", path)
            os.makedirs(os.path.dirname(path), exist_ok=True)
            with open(path, "w", encoding="utf-8") as file:
                file.write(text)

    def rows(self):
        known = self.believed.modules()
        found, told = (self.believed.reached(known, [path]) for path in ("crates/high/src/lib.rt", "crates/law/src/lib.rt"))
        return list(self.believed.sizes(known, found, told))

    def test_follows_names_through_files(self):
        self.assertEqual(self.rows(), [("high.specs.High", 1, 3, []), ("low.specs.Low", 3, 11, [])])

    def test_follows_the_laws_that_the_readme_names(self):
        """Those and no others: `other` is of the same crate."""
        for path, text in (("README.md", "The law is `law`."), ("crates/law/src/lib.rt", LAW + OTHER_LAW),
                           ("crates/low/specs/Low.antt", LOW + TOLD)):
            with open(os.path.join(self.believed.TOP, path), "w", encoding="utf-8") as file:
                file.write(text)
        self.believed.LAWS = ("law",)
        found = self.believed.reached(self.believed.modules(), [], self.believed.named_laws())
        self.assertEqual(found, {("low.specs.Low", "told")})

    def test_names_what_no_promise_rests_on(self):
        path = os.path.join(self.believed.TOP, "crates/low/specs/Low.antt")
        with open(path, "a", encoding="utf-8") as file:
            file.write("\n-- a spare one\nabbrev pub spare : ℕ → ℕ\nspare n = twice n\n")
            file.write(TOLD)
        self.assertEqual(self.rows()[1], ("low.specs.Low", 3, 11, ["spare"]))

    def test_table(self):
        self.assertEqual(list(self.believed.table(self.rows()))[2:], [
            "| `high` | `High` | 1 | 3 |", "| `low` | `Low` | 3 | 11 |", "| all 2 | 2 files | 4 | 14 |"])


class ThisRepository(unittest.TestCase):
    def printed(self, *words):
        believed, out = load(), io.StringIO()
        before, sys.argv = sys.argv, ["believed", *words]
        try:
            with contextlib.redirect_stdout(out):
                status = believed.main()
        finally:
            sys.argv = before
        return status, out.getvalue()

    def test_nothing_else_stands_beside_what_has_to_be_believed(self):
        status, found = self.printed("--unused")
        self.assertEqual((status, found.splitlines()[-1]), (0, "0 found"))

    def test_the_map_has_the_table(self):
        with open(os.path.join(TOP, "docs/architecture.md"), encoding="utf-8") as file:
            self.assertTrue(self.printed("--table")[1] in file.read(), "docs/architecture.md lacks what --table prints")

    def test_the_readme_has_the_sum(self):
        count, lines = self.printed("--table")[1].splitlines()[-1].split(" | ")[2:]
        with open(os.path.join(TOP, "README.md"), encoding="utf-8") as file:
            self.assertTrue(f"{int(count):,} definitions, {int(lines.strip(' |')):,} lines" in file.read(), "README.md has another sum")


if __name__ == "__main__":
    unittest.main()
