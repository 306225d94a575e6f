"""tools/test: what it counts, its last line and its status."""
import os
import subprocess
import sys
import tempfile
import unittest

import support

RUNNER = os.path.join(support.ROOT, "tools", "test")
PASSES = "def test_{0}(self): self.assertTrue(True)"
CASES = [
    # what stands in a file, the last line, the status
    ([PASSES.format("a"), PASSES.format("b")], "2 passed, 0 failed", 0),
    ([PASSES.format("a"), "def test_b(self): self.fail()"], "1 passed, 1 failed", 1),
    (["def test_a(self):\n  for n in range(3):\n   with self.subTest(n=n): self.assertEqual(n, 0)"], "0 passed, 1 failed", 1),
    ([PASSES.format("a"), "@unittest.skip('no compiler')\n def test_b(self): pass"], "1 passed, 0 failed, 1 skipped", 0),
    ([PASSES.format("a"), "def test_b(self): raise OSError"], "1 passed, 1 failed", 1),
    ([PASSES.format("a"), "@unittest.expectedFailure\n def test_b(self): pass"], "1 passed, 1 failed", 1),
    ([], "0 passed, 0 failed", 1),
]


class Runner(unittest.TestCase):
    def run_on(self, text):
        with tempfile.TemporaryDirectory() as folder:
            with open(os.path.join(folder, "test_it.py"), "w", encoding="utf-8") as file:
                file.write(text)
            return subprocess.run([sys.executable, RUNNER, folder], capture_output=True, text=True, timeout=60)

    def test_counts_and_status(self):
        for methods, last, status in CASES:
            with self.subTest(methods=methods):
                answer = self.run_on("import unittest\nclass T(unittest.TestCase):\n pass\n " + "\n ".join(methods) + "\n")
                self.assertEqual((answer.stdout.splitlines()[-1], answer.returncode), (last, status))

    def test_a_package_that_is_missing_is_told_and_skipped(self):
        answer = self.run_on("raise ModuleNotFoundError(name='elftools.elf')\n")
        self.assertIn("  skipped: no python3-pyelftools", answer.stdout)
        self.assertEqual(answer.stdout.splitlines()[-1], "0 passed, 0 failed, 1 skipped")

    def test_what_reads_images_where_nothing_can_is_told_and_skipped(self):
        """Once for each test, whatever of it does: the file, its class, the test, or parts of it; and what fails otherwise fails."""
        none, test = "from wadrelwy.elf import NoPackage\nimport unittest\nclass T(unittest.TestCase):\n pass\n ", "def test_a(self): "
        for text, last in [(none.replace("class T", "raise NoPackage('a')\nclass T"), "0 passed, 0 failed, 1 skipped"),
                           (f"{none}{test}raise NoPackage('a')\n def test_b(self): pass\n", "1 passed, 0 failed, 1 skipped"),
                           (f"{none}@classmethod\n def setUpClass(cls): raise NoPackage('a')\n {test}pass\n", "0 passed, 0 failed, 1 skipped"),
                           (f"{none}{test}\n  for n in range(3):\n   with self.subTest(n=n): raise NoPackage('a')\n", "0 passed, 0 failed, 1 skipped"),
                           (f"{none}{test}raise OSError('no python3-pyelftools')\n", "0 passed, 1 failed")]:
            with self.subTest(text=text):
                answer = self.run_on(text)
                self.assertEqual(answer.stdout.splitlines()[-1], last, answer.stdout)
                self.assertEqual("  skipped: no python3-pyelftools" in answer.stdout, "skipped" in last)

    def test_a_file_that_is_no_test_fails(self):
        for text in ("import a_module_that_nobody_has\n", "this is no Python\n"):
            answer = self.run_on(text)
            self.assertEqual((answer.stdout.splitlines()[-1], answer.returncode), ("0 passed, 1 failed", 1))
