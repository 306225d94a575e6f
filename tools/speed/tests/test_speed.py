"""tools/speed: what a run costs is told of runs that ended as they have to, and of no others."""
import importlib.machinery
import importlib.util
import os
import subprocess
import sys
import tempfile
import unittest
from unittest import mock

HERE = os.path.dirname(os.path.dirname(os.path.realpath(__file__)))

sys.dont_write_bytecode = True
REPORT = "echo x6 00000001; echo x7 00000002; echo pc 00000003"
# stands for the compiler: it makes a script of what PLAIN has
RUSTC = """#!/bin/sh
while [ "$1" != -o ]; do shift; done
{ echo '#!/bin/sh'; echo "$PLAIN"; } > "$2"
chmod 755 "$2"
"""
# stands for callgrind: it tells a count, and runs the command
VALGRIND = """#!/bin/sh
echo '==1== I   refs:      1,234' >&2
shift 2
exec "$@"
"""


def load():
    loader = importlib.machinery.SourceFileLoader("speed_table", os.path.join(HERE, "table"))
    module = importlib.util.module_from_spec(importlib.util.spec_from_loader("speed_table", loader))
    loader.exec_module(module)
    return module


class Scripts(unittest.TestCase):
    """A folder of scripts, which is first on the path."""

    def setUp(self):
        kept = tempfile.TemporaryDirectory()
        self.addCleanup(kept.cleanup)
        self.folder = kept.name
        self.path = kept.name + os.pathsep + os.environ["PATH"]

    def script(self, name, text):
        path = os.path.join(self.folder, name)
        with open(path, "w", encoding="utf-8") as file:
            file.write(text)
        os.chmod(path, 0o755)
        return path


class Measure(Scripts):
    def measured(self, isa, plain):
        """The status of the command, and what it tells, where the two interpreters do this."""
        self.script("rustc", RUSTC)
        program = self.script("stt_cli", f"#!/bin/sh\n{isa}\n")
        ran = subprocess.run([sys.executable, os.path.join(HERE, "measure"), "--steps", "5", "--program", program], capture_output=True, text=True,
                             check=False, env=os.environ | {"PATH": self.path, "PLAIN": plain})
        return ran.returncode, ran.stdout, ran.stderr

    def test_both_end_alike(self):
        status, told, said = self.measured(f"{REPORT}; exit 3", REPORT)
        self.assertEqual((status, said), (0, ""))
        self.assertRegex(told, r"^isa .* million steps a second, plain Rust .*, time ratio .*\n$")

    def test_one_that_ends_otherwise_is_no_measure(self):
        """Also where both write nothing, in which they agree."""
        for isa, plain, word in ((f"{REPORT}; exit 3", "echo broken >&2; exit 101", "status 101, and not 0: broken"),
                                 (f"{REPORT}; exit 0", REPORT, "status 0, and not 3"), ("exit 2", "exit 101", "status 2, and not 3"),
                                 (f"{REPORT}; exit 3", "echo x6 00000009", "the two disagree")):
            with self.subTest(word):
                status, told, said = self.measured(isa, plain)
                self.assertEqual((status, told), (1, ""))
                self.assertIn(word, said)


class Table(Scripts):
    def test_statuses(self):
        table = load()
        self.script("valgrind", VALGRIND)
        with mock.patch.dict(os.environ, {"PATH": self.path}):
            for status in (0, 1, 3):
                command = ["sh", "-c", f"echo one; exit {status}"]
                self.assertEqual((table.counted(command), table.written(command)), (1234, ["one"]))
                self.assertGreaterEqual(table.seconds(command), 0)
            for take in (table.counted, table.written, table.seconds):
                for end, told in (("exit 6", "status 6: "), ("kill -9 $$", "status -9: ")):
                    with self.subTest(take.__name__, end=end):
                        with self.assertRaises(SystemExit) as ended:
                            take(["sh", "-c", end])
                        self.assertIn(told, str(ended.exception.code))

    def test_a_row_that_isnt_there_is_refused(self):
        """A table without a row would tell nothing, and look as one that does."""
        for words, only, there in (([], "nothing", "sort small spectre"), (["--windows"], "isa", "sort 192 spectre"),
                                   ([], "desktop", "sort large futuristic"), (["--settings"], "futuristic", "sort desktop off, passing"),
                                   (["--questions", "a/b.elf@0:1"], "sort", "b small, b middle, b large, b isa")):
            ran = subprocess.run([sys.executable, os.path.join(HERE, "table"), "--only", only, *words], capture_output=True, text=True, check=False)
            self.assertEqual((ran.returncode, ran.stdout), (2, ""), words)
            self.assertIn(f"--only {only}: no row has this in its name; they are ", ran.stderr)
            self.assertIn(there, ran.stderr)

    def test_the_rows_that_are_chosen(self):
        """What --only is looked for in is the name of each row that is written."""
        table = load()
        settings = dict.fromkeys(["spectre", "off"])
        for told, machines, rows in (
                (mock.Mock(questions=None, windows=False), ["small"],
                 ["bench small spectre", "bench small off", "sort small spectre", "sort small off", "hash small spectre", "hash small off",
                  "search small spectre", "search small off", "isa loop", "isa bench", "isa sort", "isa hash", "isa search"]),
                (mock.Mock(questions=["x.elf@4096:16"], windows=False), ["small"], ["x small", "x middle", "x large", "x isa"])):
            self.assertEqual(table.rows_of(told, machines, settings), rows)

    def test_cycles_that_are_none(self):
        for word in ("0", "-1", "many"):
            ran = subprocess.run([sys.executable, os.path.join(HERE, "table"), "--cycles", word], capture_output=True, text=True, check=False)
            self.assertEqual((ran.returncode, ran.stdout), (2, ""))
            self.assertIn(f"`{word}` is no number from 1 to ", ran.stderr)


if __name__ == "__main__":
    unittest.main()
