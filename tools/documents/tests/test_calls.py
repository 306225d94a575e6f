"""The page of public calls: over a small tree that is made here."""
import os
import tempfile
import unittest

HERE = os.path.dirname(os.path.abspath(__file__))
import public_calls

LIB = """//! A crate.
mod hidden;

pub use hidden::{Ring, small};
use thiserror::Error;

/// Why nothing is given.
#[derive(Clone, Copy, Error)]
pub enum Fault {
    /// There is no room.
    #[error("no room")]
    Full,
    /// There was no memory.
    NoMemory,
}

/// What is read.
pub trait Source {
    /// Reads a byte. It takes no memory.
    fn read(&mut self, at: u32) -> Result<u8, Fault>
        requires inside { at < length (bytes self.old) }
        ensures { result ≡ Ok 0 };
}

/// A law of lists.
pub fn holds()
    ensures { (n : ℕ) → n ≡ n }
{}
"""
HIDDEN = """//! A part.

/// A ring.
pub struct Ring {
    bytes: u8,
}

impl Ring {
    /// The two ends (`docs/page.md`, "Ends"), the older
    /// first. Nothing else.
    pub fn ends(&self, from: &[u8], by: u32) -> [Option<u8>; 2]
        requires { by
            ≤ 3 }
        requires room { 0 < length from.now }
    {
        other(by)
    }

    fn other(&self) -> u8 {
        0
    }
}

impl Clone for Ring {
    fn clone(&self) -> Ring {
        Ring { bytes: 0 }
    }
}

/// Whether a number is small.
pub fn small(n: u32) -> bool {
    n < 2
}

/// A help of this crate alone.
pub fn help(n: u32) {}
"""


class SmallTree(unittest.TestCase):
    """A tree of one crate with calls, and one of tests."""

    def setUp(self):
        folder = tempfile.TemporaryDirectory()
        self.addCleanup(folder.cleanup)
        self.addCleanup(setattr, public_calls, "TOP", public_calls.TOP)
        public_calls.TOP = folder.name
        for name in ("docs", "crates/ring/src", "crates/ring_tests/src"):
            os.makedirs(os.path.join(folder.name, name))
        self.write("crates.txt", "# NAME: what it stands on\nring:\nring_tests: ring\n")
        self.write("crates/ring/src/lib.rt", LIB)
        self.write("crates/ring/src/hidden.rt", HIDDEN)
        self.write("crates/ring_tests/src/lib.rt", "/// A test.\npub fn of_tests() {}\n")

    def write(self, name, text):
        with open(os.path.join(public_calls.TOP, name), "w", encoding="utf-8") as file:
            file.write(text)

    def test_rows(self):
        rows = [line for line in public_calls.page().splitlines() if line.startswith("| `")]
        self.assertEqual(rows, [
            "| `Source::read`(&mut self, at) | Reads a byte. | `Result<u8, Fault>` | `at < length (bytes self.old)` |",
            "| `holds`() | A law of lists. | a law | - |",
            "| `Ring::ends`(&self, from, by) | The two ends (`docs/page.md`, \"Ends\"), the older first. | `[Option<u8>; 2]` "
            "| `by ≤ 3`; `0 < length from.now` |",
            "| `small`(n) | Whether a number is small. | `bool` | - |",
            "| `ring` | `Fault` | `Full`, `NoMemory` |",
        ])

    def test_crates_of_tests_are_left_out(self):
        self.assertNotIn("of_tests", public_calls.page())

    def test_a_page_that_is_gone_or_old(self):
        told = ["docs/calls.md: isn't as `python3 tools/documents/calls` writes it"]
        self.assertEqual(public_calls.wrong_page(), told)
        self.write("docs/calls.md", public_calls.page())
        self.assertEqual(public_calls.wrong_page(), [])
        self.write("crates/ring/src/hidden.rt", HIDDEN.replace("by\n            ≤ 3", "by ≤ 4"))
        self.assertEqual(public_calls.wrong_page(), told)


if __name__ == "__main__":
    unittest.main()
