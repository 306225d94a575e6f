"""The package as pip installs it, without a network, into an environment of its own: the command, its help, its files, and what it does without
a tree around it."""
import importlib.util
import os
import shutil
import subprocess
import sys
import tempfile
import unittest

import support

TOOLS = os.path.join(support.ROOT, "tools")
MISSING = [name for name in ("pip", "setuptools", "venv", "wheel", "elftools") if importlib.util.find_spec(name) is None]
STAND_IN = """#!/bin/sh
[ "$1" = isa ] && echo "end exit 0 retired 5" && exit 0
[ "$5" = 1 ] && echo "end budget retired 1 cycles 1" && exit 3
echo "end exit 0 retired 5 cycles 21"
"""


@unittest.skipIf(MISSING, f"no {', '.join(MISSING)} (Debian: python3-pip, python3-setuptools, python3-venv, python3-wheel, python3-pyelftools)")
class Installed(unittest.TestCase):
    @classmethod
    def setUpClass(cls):
        kept = tempfile.TemporaryDirectory()
        cls.addClassCleanup(kept.cleanup)
        cls.folder = kept.name
        sources, cls.place = os.path.join(cls.folder, "tools"), os.path.join(cls.folder, "environment")
        shutil.copytree(TOOLS, sources, ignore=shutil.ignore_patterns("tests", "runs", "compiled", "__pycache__", "build", "*.egg-info"))
        subprocess.run([sys.executable, "-m", "venv", "--without-pip", "--system-site-packages", cls.place], check=True)
        cls.told = subprocess.run([sys.executable, "-m", "pip", "--python", os.path.join(cls.place, "bin", "python"), "install", "--quiet",
                                   "--no-index", "--no-build-isolation", sources], capture_output=True, text=True, timeout=590, check=False)
        program = os.path.join(cls.folder, "stand_in")
        with open(program, "w", encoding="ascii") as file:
            file.write(STAND_IN)
        os.chmod(program, 0o755)
        cls.program = program

    def run_installed(self, *words):
        kept = {name: value for name, value in os.environ.items() if name not in ("PYTHONPATH", "STT_CLI", "STT_SECRETS", "STT_STATS")}
        return subprocess.run([os.path.join(self.place, "bin", "wadrelwy"), *words], capture_output=True, text=True, timeout=120, cwd=self.folder,
                              env=kept, check=False)

    def test_it_installs(self):
        self.assertEqual(self.told.returncode, 0, self.told.stderr)

    def test_help(self):
        told = self.run_installed("--help")
        self.assertEqual((told.returncode, told.stderr), (0, ""))
        self.assertIn("\n  verdict   ", told.stdout)

    def test_what_needs_no_program(self):
        """The path of an image; a page, whose style and script came with the package."""
        told = self.run_installed("path", "report", support.example("bounds_check.elf"), "--desc", support.example("core.toml"))
        self.assertEqual((told.returncode, told.stdout.splitlines()[-1]), (0, "end exit 0 retired 5"))
        trace = os.path.join(self.folder, "a.trace")
        with open(trace, "w", encoding="ascii") as file:
            file.writelines(support.worked_trace("Bounds check bypass"))
        for more in ([], ["--whole"]):
            told = self.run_installed("view", "html", trace, "-e", support.example("bounds_check.elf"), "-D", support.example("core.toml"), *more)
            self.assertEqual((told.returncode, told.stderr), (0, ""))
            self.assertIn("function widen(chart, width)", told.stdout)

    def test_without_a_tree(self):
        """No program is looked for in a tree that isn't there, and a table is cited by the package and not by a repository around it."""
        subprocess.run(["git", "init", "-q", self.folder], check=False)
        for words in (["run", support.example("core.toml"), support.example("bounds_check.elf")], ["defences", "--program", self.program]):
            told = self.run_installed(*words)
            self.assertEqual((told.returncode, told.stdout, told.stderr.count("\n")), (2, "", 1), told.stderr)
        told = self.run_installed("sweep", "out", "--programs", support.example("bounds_check.elf"), "--descriptions", support.example("core.toml"),
                                  "--program", self.program)
        self.assertEqual((told.returncode, told.stderr), (0, ""))
        self.assertRegex(told.stdout, r"\nby stand_in sha256 [0-9a-f]{64}, tools 1, sources sha256 [0-9a-f]{16}\n")


if __name__ == "__main__":
    unittest.main()
