"""The book of definitions: over a small tree that is made here, and over this repository."""
import contextlib
import html
import io
import os
import re
import subprocess
import sys
import tempfile
import unittest
from argparse import Namespace
from urllib.parse import unquote

from wadrelwy import Fault
from wadrelwy.book.pages import Book, pages
from wadrelwy.commands import book as command
from wadrelwy.definitions.tree import Place

TOP = os.path.dirname(os.path.dirname(os.path.dirname(os.path.dirname(os.path.abspath(__file__)))))

LOW = """-- Numbers.
use Rattle.std.specs.Prelude.{ℕ, ◌+◌, ◌<◌, ◌&&◌, Bool, List, [], ◌∷◌, codes}
use Rattle.low.specs.declared.Kind.TheVariants as kind
use Rattle.low.specs.declared.Kind.{Kind}

-- what holds of all of them

-- twice a number
-- where it is `small`
abbrev pub twice : ℕ → ℕ
twice n = n + n -- by itself

-- ---- Pairs

-- a pair
pub record Two (bound : ℕ) : Type 0 where
  -- the first
  pub one : ℕ

  pub two : List ℕ

pub data Shape : Type 0 where
  Round : ℕ → Shape
  Flat : Shape

-- a name that is bound in one clause and stands for a definition in the other
abbrev pub of_shape : Shape → Kind → ℕ → ℕ
of_shape (Round twice) kind.Small n = twice
of_shape Flat k n = twice n + lost

unfoldable pub told : Two 3 → List ℕ
told p =
    let first = p.one in
    if first < twice 2 && true then codes "a <b> & \\"c\\" -- no comment" else p.two
"""
HIGH = """-- A promise.
use Rattle.std.specs.Prelude.{ℕ, ◌≡◌, IsTrue}
use Rattle.low.specs.Low.{twice as double, Two}
use Rattle.low.specs.Low as low

-- what is promised
abbrev pub Promise : Two 3 → ℕ → Type 0
Promise p n = (k : ℕ) → double p.one ≡ low.told k
"""
CODE = """//! Kinds of numbers. And more.
ghost use Rattle.low.specs.Low.{twice};

/// A kind.
pub enum Kind {
    /// A small one.
    Small,
    Large(u8),
}
"""
CALL = """//! The call.
ghost use Rattle.high.specs.High.{Promise};

/// Answers.
pub fn top(n: &u32, f: F) -> u32
    requires few { n.now < 3 }
    ensures promise { Promise (pair n.now)
        result }
{
    n
}

/// A law.
pub fn law()
    ensures { (n : ℕ) → Promise n n }
{}
"""
README = """# A tree

## What is promised

| Promise | What it asks for | Clause |
|---|---|---|
| It is `so` | nothing \\| little | `top`: `promise` (`Promise`) |
| A law | nothing | `law`, `gone` |
| A field | nothing | `Two`: `one`; `Promise`: `two` |

## The end
"""


class SmallTree(unittest.TestCase):
    def setUp(self):
        folder = tempfile.TemporaryDirectory()
        self.addCleanup(folder.cleanup)
        self.top = folder.name
        for path, text in (("crates/low/specs/Low.antt", LOW), ("crates/low/src/lib.rt", CODE), ("crates/high/specs/High.antt", HIGH),
                           ("crates/high/src/lib.rt", CALL), ("README.md", README)):
            self.write(path, text)

    def write(self, path, text):
        path = os.path.join(self.top, path)
        os.makedirs(os.path.dirname(path), exist_ok=True)
        with open(path, "w", encoding="utf-8") as file:
            file.write(text)

    def words(self, file, name):
        """The words of a definition that stand for something, by their places."""
        pieces = Book(self.top).words[Place(file, name)]
        return [(it.text, it.place.name + ("." + it.place.member if it.place.member else "")) for it in pieces if it.place]

    def test_words_have_the_places_of_their_definitions(self):
        self.assertEqual(self.words("high/specs/High", "Promise"), [
            ("Promise", "Promise"), ("Two", "Two"), ("Promise", "Promise"), ("double", "twice"), ("one", "Two.one"), ("told", "told")])

    def test_what_a_clause_binds_is_no_definition_there(self):
        self.assertEqual(self.words("low/specs/Low", "of_shape"), [
            ("of_shape", "of_shape"), ("Shape", "Shape"), ("Kind", "Kind"), ("of_shape", "of_shape"), ("Round", "Shape.Round"), ("Small", "Kind.Small"),
            ("of_shape", "of_shape"), ("Flat", "Shape.Flat"), ("twice", "twice")])

    def test_words_that_are_not_found_are_counted(self):
        book = Book(self.top)
        self.assertEqual(sorted(text for _, text in book.unknown()), ["gone", "lost", "pair", "true", "two", "ℕ"])
        self.assertIn('<span class="unknown">lost</span> in <a href="low/specs/Low.html#of_shape">of_shape</a>', pages(book)["unknown.html"])

    def test_definitions_are_whole(self):
        book = Book(self.top)
        for place, it in book.definitions.items():
            self.assertEqual("".join(word.text for word in book.words[place]).rstrip("\n"), it.text)
        self.assertEqual(book.definitions[Place("low/specs/Low", "twice")].lines, ("abbrev pub twice : ℕ → ℕ", "twice n = n + n -- by itself"))
        self.assertEqual(book.definitions[Place("low/specs/Low", "Two")].members, ("one", "two"))
        self.assertEqual(len(book.definitions[Place("low/specs/Low", "told")].lines), 4)

    def test_a_page_has_comments_literals_and_who_cites(self):
        page = pages(Book(self.top))["low/specs/Low.html"]
        self.assertIn("<p>twice a number where it is <code>small</code></p>", page)
        self.assertIn("what holds of all of them", page)
        self.assertIn("<h2>Pairs</h2>", page)
        self.assertIn('<span class="text">&quot;a &lt;b&gt; &amp; \\&quot;c\\&quot; -- no comment&quot;</span>', page)
        self.assertIn('<span class="comment">-- by itself</span>', page)
        self.assertIn('<p class="users">Cited by <a href="../../high/specs/High.html#Promise">Promise</a> <small>(high)</small>, <a href="#of_shape">of_shape</a>, '
                      '<a href="#told">told</a>.</p>', page)
        self.assertNotIn("<script", page)

    def test_a_promise_has_its_clauses_word_by_word(self):
        page = pages(Book(self.top))["index.html"]
        self.assertIn("<h3>It is <code>so</code></h3>\n<p>It asks for: nothing | little.</p>", page)
        self.assertIn('<a href="high/src/lib.html#top.promise">promise</a>', page)
        self.assertIn('top: ensures promise { <a href="high/specs/High.html#Promise">Promise</a> (<span class="unknown">pair</span> n.now)\n        result }', page)
        self.assertIn('law: ensures { (n : <span class="unknown">ℕ</span>) → <a href="high/specs/High.html#Promise">Promise</a> n n }', page)
        self.assertIn('<span class="unknown">gone</span>', page)

    def test_a_promise_names_a_field_of_the_record_before_it(self):
        page = pages(Book(self.top))["index.html"]
        self.assertIn('<a href="low/specs/Low.html#Two">Two</a></code>: <code><a href="low/specs/Low.html#Two.one">one</a></code>', page)
        self.assertIn('<a href="high/specs/High.html#Promise">Promise</a></code>: <code><span class="unknown">two</span>', page)

    def test_every_link_has_its_place(self):
        self.assertEqual(lost_links(pages(Book(self.top))), [])

    def test_a_line_of_no_definition_is_refused(self):
        self.write("crates/low/specs/Low.antt", LOW + "\nother n = n\n")
        with self.assertRaisesRegex(Fault, r"crates/low/specs/Low.antt, line \d+, belongs to no definition: other n = n"):
            self.asked(os.path.join(self.top, "book"))

    def test_the_folder(self):
        folder = os.path.join(self.top, "book")
        self.assertEqual(self.asked(folder), 0)
        os.remove(os.path.join(self.top, "crates/high/specs/High.antt"))
        self.assertEqual(self.asked(folder), 0)
        self.assertFalse(os.path.exists(os.path.join(folder, "high/specs/High.html")))
        with self.assertRaisesRegex(Fault, "has files that are no book"):
            self.asked(os.path.join(self.top, "crates"))
        self.top = os.path.join(self.top, "crates", "low")
        with self.assertRaisesRegex(Fault, "has no definitions"):
            self.asked(folder)

    def asked(self, folder):
        with contextlib.redirect_stdout(io.StringIO()):
            return command.main(Namespace(folder=folder, tree=self.top))


def lost_links(made):
    """The links of pages that lead nowhere, and the marks that a page has twice."""
    marks = {way: re.findall(r' id="([^"]*)"', text) for way, text in made.items()}
    lost = [(way, mark) for way, found in marks.items() for mark in set(found) if found.count(mark) > 1]
    for way, text in made.items():
        for link in map(html.unescape, re.findall(r'<a[^>]* href="([^"]*)"', text)):
            target, _, mark = link.partition("#")
            there = os.path.normpath(os.path.join(os.path.dirname(way), unquote(target))) if target else way
            if there not in made or mark and html.escape(unquote(mark)) not in marks[there]:
                lost.append((way, link))
    return lost


class ThisRepository(unittest.TestCase):
    def test_the_book_of_this_tree(self):
        with tempfile.TemporaryDirectory() as folder:
            ran = subprocess.run([sys.executable, "-m", "wadrelwy", "book", "-o", folder], cwd=os.path.join(TOP, "tools", "src"), text=True,
                                 stdout=subprocess.PIPE, check=False)
            self.assertEqual(ran.returncode, 0)
            found = re.search(r"(\d+) promises, (\d+) definitions, (\d+) contracts, \d+ files; \d+ words not found \((\d+) different\)", ran.stdout)
            self.assertIsNotNone(found)
            promises, definitions, contracts, unknown = map(int, found.groups())
            made = {os.path.relpath(os.path.join(place, name), folder): open(os.path.join(place, name), encoding="utf-8").read()
                    for place, _, names in os.walk(folder) for name in names}
        self.assertEqual(promises, README_PROMISES)
        self.assertGreater(definitions, 2000)
        self.assertGreater(contracts, 400)
        # what derives and the kit's own types have, for the most part, in each crate that uses them: another word that isn't found is one to look at
        self.assertLess(unknown, 30)
        self.assertEqual(lost_links(made), [])
        index = made["index.html"].split('<h2 id="crates">')[0]
        self.assertNotIn('class="unknown"', index.split('<h2 id="promises">')[1], "a word of the promises isn't found")


with open(os.path.join(TOP, "README.md"), encoding="utf-8") as README_FILE:
    README_PROMISES = len(re.search(r"\| Promise \|.*\n((?:\|.*\n)+)", README_FILE.read())[1].splitlines()) - 1


if __name__ == "__main__":
    unittest.main()
