"""The command tools/evaluate/trace: the trace of a run of its folder, and two images compared."""
import importlib.util
import os
import subprocess
import sys
import tempfile
import unittest

HERE = os.path.dirname(os.path.dirname(os.path.realpath(__file__)))
EXAMPLES = os.path.join(os.path.dirname(os.path.dirname(HERE)), "examples")
NOTE = "unproved: the model of tools/evaluate\n"


def asked(*words):
    """What the command answers; it reads images, so where there is no pyelftools the test is skipped."""
    ran = subprocess.run([sys.executable, os.path.join(HERE, "trace"), *words], text=True, capture_output=True, check=False)
    if "has no package elftools" in ran.stderr and importlib.util.find_spec("elftools") is None:
        raise unittest.SkipTest("no python3-pyelftools")
    return ran.returncode, ran.stdout, ran.stderr


def example(name):
    return os.path.join(EXAMPLES, name)


class Trace(unittest.TestCase):
    def test_the_trace_and_the_status_of_a_run(self):
        for name in ("fault_held", "faulting_load"):
            with self.subTest(name):
                folder = os.path.join(HERE, "runs", name)
                wanted = {file: open(os.path.join(folder, file), encoding="ascii").read() for file in ("cycles", "status", "trace")}
                self.assertEqual(asked(os.path.join(folder, "core.toml"), os.path.join(folder, "image.elf"), "--cycles", wanted["cycles"].strip()),
                                 (int(wanted["status"]), wanted["trace"], NOTE))

    def test_a_pair(self):
        images = example("bounds_check.elf"), example("bounds_check_other.elf")
        self.assertEqual(asked(example("core.toml"), *images), (0, "equal\n", NOTE))
        status, told, _ = asked(example("core_unprotected.toml"), *images)
        self.assertEqual(status, 1)
        first, one, two = told.splitlines()
        self.assertEqual(first, "unequal")
        self.assertRegex(one, r"^A: 15 .*ld:6:0001f900:m")
        self.assertRegex(two, r"^B: 15 .*ld:6:0001fa10:m")

    def test_a_pair_that_the_budget_cuts_is_not_told_equal(self):
        """The two differ in cycle 15 (docs/traces.md, "Bounds check bypass"): before it nothing tells them apart."""
        images = example("bounds_check.elf"), example("bounds_check_other.elf")
        self.assertEqual(asked(example("core_unprotected.toml"), *images, "--cycles", "14"), (3, "equal until the budget ended both\n", NOTE))
        self.assertEqual(asked(example("core_unprotected.toml"), *images, "--cycles", "15")[0], 1)

    def test_what_is_refused_is_told_in_a_line(self):
        with tempfile.TemporaryDirectory() as folder:
            lacking = []
            for line in ("rob = 16", "btb = 4"):
                lacking.append(os.path.join(folder, f"{line.split()[0]}.toml"))
                with open(example("core.toml"), encoding="utf-8") as core, open(lacking[-1], "w", encoding="utf-8") as file:
                    file.write(core.read().replace(line, ""))
            for words in ((example("gone.toml"), example("bounds_check.elf")), (example("core.toml"), example("core.toml")),
                          *((path, example("bounds_check.elf")) for path in lacking)):
                status, told, said = asked(*words)
                self.assertEqual((status, told), (2, ""), said)
                self.assertRegex(said, r"^unproved: .*\ntools/evaluate/trace: .*\n$")


if __name__ == "__main__":
    unittest.main()
