"""tools/refuse-memory/run: runs that fail have no count of allocations, however alike the counts are."""
import importlib.machinery
import importlib.util
import os
import subprocess
import sys
import tempfile
import unittest
from types import SimpleNamespace
from unittest import mock

HERE = os.path.dirname(os.path.dirname(os.path.realpath(__file__)))
EXAMPLES = os.path.join(os.path.dirname(os.path.dirname(HERE)), "examples")
CORE = os.path.join(EXAMPLES, "core.toml")

sys.dont_write_bytecode = True


def load():
    loader = importlib.machinery.SourceFileLoader("refuse_memory", os.path.join(HERE, "run"))
    module = importlib.util.module_from_spec(importlib.util.spec_from_loader("refuse_memory", loader))
    loader.exec_module(module)
    return module


class Budgets(unittest.TestCase):
    def wrong(self, counted):
        """What is wrong of runs that end so."""
        tool = load()
        with mock.patch.object(tool, "counted", counted):
            return tool.budgets_of_one_count(("stt_cli", "stt_secrets", "stt_stats"), "refuse.so", CORE)

    def test_runs_that_ran(self):
        self.assertEqual(self.wrong(lambda *_: (SimpleNamespace(returncode=3, stderr=b""), 7)), [])
        self.assertEqual(self.wrong(lambda *_: (SimpleNamespace(returncode=0, stderr=b""), 7)), [])

    def test_counts_that_follow_the_budget(self):
        found = self.wrong(lambda _, command: (SimpleNamespace(returncode=3, stderr=b""), int(command[-1])))
        self.assertEqual(len(found), 9)
        for line in found:
            self.assertIn("allocations [1, 10, 1000, 100000] for the budgets [1, 10, 1000, 100000]", line)

    def test_refused_runs_are_told(self):
        """Nine commands under four budgets, all of one count."""
        found = self.wrong(lambda *_: (SimpleNamespace(returncode=5, stderr=b"image E14 0\n"), 7))
        self.assertEqual(len(found), 36)
        for line in found:
            self.assertRegex(line, r"^\w+, budget 10*: status 5, b'image E14 0\\n'$")


class EachAllocation(unittest.TestCase):
    def refused(self, asked, **ended):
        """The answer where a command asks so often, and each run ends so that is refused one."""
        tool = load()

        def counted(_library, _command, number):
            if number <= asked:
                return SimpleNamespace(returncode=8, stdout=b"", stderr=b"memory\n"), asked
            return SimpleNamespace(**{"returncode": 0, "stdout": b"", "stderr": b""} | ended), asked
        with mock.patch.object(tool, "counted", counted):
            return tool.refuse_each("refuse.so", "isa", ["stt_cli"])

    def test_each_in_turn(self):
        self.assertEqual(self.refused(3), (3, []))

    def test_a_run_that_isnt_refused_has_to_end(self):
        self.assertEqual(self.refused(3, returncode=5), (3, ["isa, none refused: status 5, b''"]))

    def test_where_none_is_counted_none_was_refused(self):
        number, wrong = self.refused(0)
        self.assertEqual((number, len(wrong)), (0, 1))
        self.assertIn("isa: no allocation is counted", wrong[0])


class Words(unittest.TestCase):
    def test_a_description_that_is_none(self):
        with tempfile.TemporaryDirectory() as folder:
            program, other = os.path.join(folder, "program"), os.path.join(folder, "other.toml")
            for path, text in ((program, "#!/bin/sh\n"), (other, "rob = 16\n")):
                with open(path, "w", encoding="utf-8") as file:
                    file.write(text)
            os.chmod(program, 0o755)
            for description in (os.path.join(folder, "gone.toml"), other, os.path.join(EXAMPLES, "bounds_check.elf")):
                words = [description, os.path.join(EXAMPLES, "bounds_check.elf"), "--program", program, "--secrets-program", program,
                         "--stats-program", program]
                ran = subprocess.run([sys.executable, os.path.join(HERE, "run"), *words], capture_output=True, text=True, check=False)
                self.assertEqual((ran.returncode, ran.stdout), (2, ""))
                self.assertIn(os.path.basename(description), ran.stderr)
                self.assertNotIn("Traceback", ran.stderr)


if __name__ == "__main__":
    unittest.main()
