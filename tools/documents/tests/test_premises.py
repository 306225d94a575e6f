"""Tests of tools/documents/premises: over small files of laws and proofs, and over this repository."""
import importlib.machinery
import importlib.util
import os
import unittest

HERE = os.path.dirname(os.path.abspath(__file__))


def load():
    loader = importlib.machinery.SourceFileLoader("documents_premises", os.path.join(HERE, "..", "premises"))
    module = importlib.util.module_from_spec(importlib.util.spec_from_loader("documents_premises", loader))
    loader.exec_module(module)
    return module


LAW = """-- a law
abbrev pub Grows : (ℕ → ℕ) → Type 0
Grows f = (a b : ℕ) → a ≤ b
    → 1 ≤ a → f a ≤ f b

pub record Moves (f : ℕ → ℕ) : Type 0 where
  -- its field
  pub one : (k : ℕ) → k ≤ 7 → f k ≤ 9
  pub many : (k : ℕ) → 3 ≤ k → f k ≤ 9
"""


class SmallFiles(unittest.TestCase):
    def setUp(self):
        self.premises = load()

    def dropped(self, proofs, laws=LAW):
        return self.premises.dropped({"crates/low/specs/Law.antt": laws, "crates/low/proofs/Law.antt": proofs})

    def test_laws(self):
        every = "Grows: each proof drops a ≤ b"
        cases = [
            ("grows : Grows f\ngrows a b le some = helper a b le some\n", []),
            ("grows : Grows f\ngrows a b le some = helper a b\n    some\n", [every]),
            # a proof as a function, a name of a part, and one that takes its premise apart
            ("grows : Grows f\ngrows = λ a b le some. helper some\n", [every]),
            ("grows : Grows f\ngrows a b le some = helper le.0 some\n", []),
            ("grows : Grows f\ngrows a b (p, q) some = helper some\n", []),
            # in one clause it is used, in none it is; a comment uses nothing
            ("grows : Grows f\ngrows zero b le some = some\ngrows (suc a) b le some = helper le some\n", []),
            ("grows : Grows f\ngrows zero b le some = some -- le\ngrows (suc a) b _ some = some\n", [every]),
            ("grows : Grows f\ngrows zero b le some = record {\n  a = some;\n}\ngrows (suc a) b le some = helper le some\n", []),
            # a tactic reads all that is in scope
            ("grows : Grows f\ngrows a b le some = helper some (omega arith)\n", []),
            # another proof of the law uses it
            ("one : Grows f\none a b le some = some\ntwo : Grows g\ntwo a b le some = helper le some\n", []),
            # who has the law may need the premise in it
            ("grows : Grows f\ngrows a b le some = some\nuser : Grows f → f 1 ≤ f 2\nuser g = g 1 2 a b\n", []),
        ]
        for proofs, wanted in cases:
            with self.subTest(proofs=proofs):
                self.assertEqual(self.dropped(proofs)[0], wanted)

    def test_fields(self):
        cases = [
            ("moves : Moves f\nmoves = record {\n  one = λ k le. helper k le;\n  many = λ k le. other (k, le);\n}\n", []),
            ("moves : Moves f\nmoves = record { one = λ k le. helper k; many = λ k le. let a = le in other a; }\n",
             ["Moves.one: each proof drops k ≤ 7"]),
            ("moves : Moves f\nmoves = record { one = helper; many = λ k _. other k; }\n", ["Moves.many: each proof drops 3 ≤ k"]),
        ]
        for proofs, wanted in cases:
            with self.subTest(proofs=proofs):
                self.assertEqual(self.dropped(proofs)[0], wanted)

    def test_lemmas(self):
        told = "crates/low/proofs/Law.antt: low drops a ≡ b"
        cases = [
            ("pub low : (a b : ℕ) {c : ℕ} (d : ℕ) → a ≡ b → P a\nlow a b d e = helper a\n", [told]),
            # it is handed on to the lemma itself alone
            ("low : (a b : ℕ) → a ≡ b → P a\nlow zero b e = base\nlow (suc a) b e = step (low a b e)\n", [told]),
            ("low : (a b : ℕ) → a ≡ b → P a\nlow zero b e = base e\nlow (suc a) b e = step (low a b e)\n", []),
            # no fact, and a definition
            ("low : ℕ → List ℕ → P 0\nlow a b = helper\n", []),
            # within another lemma
            ("high : (a : ℕ) → P a\nhigh a = low a a refl\n  where\n    low : (a b : ℕ) → a ≡ b → P a\n    low a b e = helper a\n", [told]),
        ]
        for proofs, wanted in cases:
            with self.subTest(proofs=proofs):
                self.assertEqual(self.dropped(proofs)[1], wanted)


class ThisRepository(unittest.TestCase):
    def test_laws(self):
        premises = load()
        self.assertEqual(premises.dropped(premises.texts())[0], [])


if __name__ == "__main__":
    unittest.main()
