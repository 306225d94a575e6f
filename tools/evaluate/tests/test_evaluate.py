"""What tools/evaluate/write makes of the runs has what their folders have, and what is no run is refused."""
import ast
import os
import re
import shutil
import struct
import subprocess
import sys
import tempfile
import unittest

HERE = os.path.dirname(os.path.dirname(os.path.realpath(__file__)))
ROOT = os.path.dirname(os.path.dirname(HERE))
RUNS = os.path.join(HERE, "runs")
NAMES = sorted(name for name in os.listdir(RUNS) if os.path.isdir(os.path.join(RUNS, name)))

sys.dont_write_bytecode = True

# what makes a run's folder none, by the file that is changed, and what is told of it
WRONG = [
    ("an image that is cut", "image.elf", lambda old: old[:-1], "the image has"),
    ("a trace without its last line's end", "trace", lambda old: old[:-1], "have to end with a line's end"),
    ("a description that is no TOML", "core.toml", lambda old: b"[core\n", "lacks a key, or is no TOML"),
    ("a description that lacks a key", "core.toml", lambda old: old.replace(b"rob", b"bor"), "lacks a key, or is no TOML"),
    ("cycles that are no number", "cycles", lambda old: b"many\n", "no number"),
]


def content(*path):
    with open(os.path.join(*path), "rb") as file:
        return file.read()


def write(*words):
    return subprocess.run([sys.executable, os.path.join(HERE, "write"), *words], capture_output=True, text=True)


def lines_of(text, field):
    """The lines of a field of a definition, as the bytes of a text."""
    listed = re.search(field + r" = lines \(\n(.*?)\n      \[\]\)", text, re.S)[1]
    return "".join(ast.literal_eval(line.strip().removesuffix(" ∷")) + "\n" for line in listed.split("\n")).encode()


class Evaluate(unittest.TestCase):
    def test_the_crate_has_what_would_be_written(self):
        ended = write("--check")
        self.assertEqual(ended.returncode, 0, ended.stdout + ended.stderr)

    def test_definitions_have_what_the_folders_have(self):
        for name in NAMES:
            module = "".join(part.capitalize() for part in name.split("_"))
            text = content(ROOT, "crates", "generated_runs", "specs", module + ".antt").decode()
            image = b"".join(struct.pack("<I", int(word, 16)) for word in re.findall(r"0x([0-9a-f]{8}) ∷", text))
            with self.subTest(name):
                self.assertEqual(lines_of(text, "description"), content(RUNS, name, "core.toml"))
                self.assertEqual(image, content(RUNS, name, "image.elf"))
                self.assertIn(f"  cycles = {int(content(RUNS, name, 'cycles'))};\n", text)
                self.assertEqual(lines_of(text, "trace"), content(RUNS, name, "trace"))

    def written_of(self, file="cycles", change=lambda old: old):
        """The answer, and the files of definitions that are written, of a folder with one run of which a file is changed."""
        with tempfile.TemporaryDirectory() as folder:
            runs, crate = os.path.join(folder, "runs"), os.path.join(folder, "crate")
            shutil.copytree(os.path.join(RUNS, NAMES[0]), os.path.join(runs, NAMES[0]))
            for part in ("specs", "proofs"):
                os.makedirs(os.path.join(crate, part))
            with open(os.path.join(runs, NAMES[0], file), "wb") as changed:
                changed.write(change(content(RUNS, NAMES[0], file)))
            ended = write("--runs", runs, "--crate", crate)
            return ended, sorted(name for part in ("specs", "proofs") for name in os.listdir(os.path.join(crate, part)))

    def test_what_is_no_run_is_refused_and_nothing_is_written(self):
        """Where nothing is changed the same words write the run."""
        ended, written = self.written_of()
        module = "".join(part.capitalize() for part in NAMES[0].split("_"))
        self.assertEqual((ended.returncode, ended.stderr, written), (0, "", sorted(["Agreeing.antt", "Lib.antt", "Runs.antt", f"{module}.antt"])))
        for what, file, change, told in WRONG:
            with self.subTest(what):
                ended, written = self.written_of(file, change)
                self.assertEqual((ended.returncode, ended.stdout, ended.stderr.count("\n"), written), (1, "", 1, []))
                self.assertTrue(ended.stderr.startswith(f"{NAMES[0]}: ") and told in ended.stderr, ended.stderr)

    def test_cases_are_the_runs_that_are_named(self):
        with tempfile.TemporaryDirectory() as folder:
            cases = os.path.join(folder, "runs.cases")
            self.assertEqual(write("--cases", cases, *NAMES[:2]).returncode, 0)
            text = content(cases).decode()
            self.assertEqual(re.findall(r"(?m)^case (\w+)$", text), NAMES[:2])
            for name, case in zip(NAMES[:2], text.split("\ndescription ")[1:]):
                self.assertEqual(bytes.fromhex("".join(re.findall(r"(?m)^p\.elf hex (.*)$", case))), content(RUNS, name, "image.elf"))
                wanted = "".join(f"    {line}\n" for line in content(RUNS, name, "trace").decode().splitlines())
                self.assertTrue(case.endswith(f"\nout\n{wanted}"))

    def test_names_that_are_none_write_nothing(self):
        """One that no run has is refused, also beside others, and so are names without --cases, which would write the facts of all runs."""
        with tempfile.TemporaryDirectory() as folder:
            cases, crate = os.path.join(folder, "runs.cases"), os.path.join(folder, "crate")
            for words, word in ((["--cases", cases, NAMES[0], "no_such_run"], "has no run no_such_run"),
                                (["--crate", crate, NAMES[0]], "--cases alone")):
                ran = write(*words)
                self.assertEqual((ran.returncode, ran.stdout), (2, ""))
                self.assertIn(word, ran.stderr)
            self.assertEqual(os.listdir(folder), [])

    def test_the_stored_cases_are_as_they_would_be_written(self):
        stored = os.path.join(ROOT, "crates", "case_runs", "data", "independent.cases")
        names = re.findall(r"(?m)^case (\w+)$", content(stored).decode())
        with tempfile.TemporaryDirectory() as folder:
            cases = os.path.join(folder, "runs.cases")
            self.assertEqual(write("--cases", cases, *names).returncode, 0)
            self.assertEqual(content(cases), content(stored))


if __name__ == "__main__":
    unittest.main()
