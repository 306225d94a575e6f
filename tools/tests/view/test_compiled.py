"""Compiled modules (tools/compile) answer what the plain ones do: over small and random programs, over traces that lack an event, and in
verdicts."""
import glob
import importlib.machinery
import importlib.util
import json
import os
import random
import shutil
import subprocess
import sys
import sysconfig
import tempfile
import unittest

import aliasing
import support
from programs import PROGRAMS
from wadrelwy.view import faster

TOOLS = os.path.join(support.ROOT, "tools")
SOURCES = os.path.join(TOOLS, "src")
HEADER = os.path.join(sysconfig.get_paths()["include"], "Python.h")
MISSING = next((name for name in ("cython3", "gcc") if shutil.which(name) is None), None if os.path.isfile(HEADER) else "Python.h")
# what runs each case: with the modules of a folder where one is named
CHILD = """
import contextlib, io, json, sys
sys.path.insert(0, sys.argv[1])
from wadrelwy.view import Fault, faster
if sys.argv[3:]:
    assert faster.by_compiled([], sys.argv[3])
# no command takes those of the tree beside modules that are there already
faster.by_compiled = lambda words: True
from wadrelwy.riscv.arithmetic import takes, value_of
from wadrelwy.riscv.operation import BRANCHES, VALUES
from wadrelwy.verdict import hart, judge, report
from wadrelwy.verdict.loaded import load
from wadrelwy.verdict.path import walk
from wadrelwy.__main__ import main
from wadrelwy.view import pipeline
from wadrelwy.view.description import read_description
def run_of(image, described, model, steps):
    # what the instruction set's run of an image loads, each step, and how it leaves registers and memory
    loaded = load(image, read_description(described))
    run = hart.Hart(loaded, model != "futuristic")
    steps_taken = [tuple(step) for step in run.run(steps)]
    return walk(loaded, model, steps), steps_taken, hart.report(run, loaded)
def values_of(numbers):
    # what each instruction makes of each two of these words
    pairs = [(a, b) for a in numbers for b in numbers]
    return [[name, [f(name, *pair) for pair in pairs]] for names, f in ((VALUES, value_of), (BRANCHES.values(), takes)) for name in sorted(names)]
assert pipeline.__file__.endswith(".so") == bool(sys.argv[3:]), pipeline.__file__
for words in json.load(open(sys.argv[2])):
    out = io.StringIO()
    with contextlib.redirect_stdout(out), contextlib.redirect_stderr(out):
        if words[0] == "verdict":
            print(*report.lines(judge.case_of(*words[1:])), sep="\\n")
        elif words[0] == "values":
            print(values_of(words[1]))
        elif words[0] == "run":
            print(run_of(*words[1:]))
        else:
            print(main(["view", *words]))
    print(json.dumps([words, out.getvalue()]))
"""


def compile_command():
    """The command tools/compile as a module."""
    loader = importlib.machinery.SourceFileLoader("compile_command", os.path.join(TOOLS, "compile"))
    module = importlib.util.module_from_spec(importlib.util.spec_from_loader(loader.name, loader))
    loader.exec_module(module)
    return module


def are_compiled():
    """Whether tools/compile has compiled these sources: then they aren't compiled again."""
    path = os.path.join(faster.FOLDER, faster.STAMP)
    if not os.path.isfile(path):
        return False
    with open(path, encoding="ascii") as file:
        return file.read() == faster.stamp()


def trace_file(number, lines):
    return support.file_of(f"compiled{number}.trace", "".join(lines).encode())


def without_an_event():
    """The worked trace of the bounds check and one in which a load is violated, each with one event less, or with one that is none."""
    for lines, *files in (support.worked_trace("Bounds check bypass"), support.example("bounds_check.elf"), support.example("core.toml")), \
            support.stored("bit_asks_for_addresses"):
        for place, line in enumerate(lines):
            for event in line.split()[1:] if not line.startswith("end") else ():
                for other in ("", event.replace(":", ":9", 1)):
                    yield [*lines[:place], line.replace(" " + event, " " + other if other else "", 1), *lines[place + 1:]], *files


def of_programs():
    """Traces of small programs and of random ones, under each model and defence."""
    draw = random.Random(11)
    for place, words in enumerate(PROGRAMS.values()):
        image = support.image_of_words(f"small{place}", words)
        for keys in support.defended(depend=2):
            for described in support.descriptions(2, ("spectre", "futuristic"), **keys)[:2]:
                yield support.modelled(described, image, 400), image, described
    for number in range(12):
        image, described = aliasing.image(draw, f"compiled{number}"), aliasing.description(draw, f"compiled{number}")
        yield support.modelled(described, image, 1000), image, described


@unittest.skipIf(MISSING, f"no {MISSING}")
class Compiled(unittest.TestCase):
    @classmethod
    def setUpClass(cls):
        cls.folder = tempfile.TemporaryDirectory()
        if are_compiled():
            shutil.copytree(faster.FOLDER, cls.folder.name, dirs_exist_ok=True)
        else:
            compile_command().build(cls.folder.name, "-O0")

    @classmethod
    def tearDownClass(cls):
        cls.folder.cleanup()

    def same(self, cases):
        """Runs cases with the plain modules and with the compiled ones."""
        path = support.file_of("cases.json", json.dumps(cases).encode())
        ran = [subprocess.run([sys.executable, "-c", CHILD, SOURCES, path, *folder], capture_output=True, text=True, timeout=600)
               for folder in ([], [self.folder.name])]
        self.assertEqual([answer.returncode for answer in ran], [0, 0], ran[1].stderr or ran[0].stderr)
        plain, compiled = (answer.stdout.splitlines() for answer in ran)
        self.assertEqual((len(plain), len(compiled)), (len(cases), len(cases)))
        for one, two in zip(plain, compiled):
            self.assertEqual(one, two)
        return [json.loads(line)[1] for line in plain]

    def cases(self, subcommands, runs):
        return [[*subcommand, trace_file(number, lines), "-e", image, "-D", described, "--notation", "kinds"]
                for number, (lines, image, described) in enumerate(runs) for subcommand in subcommands]

    def test_programs(self):
        told = self.same(self.cases((["stats", "--json"], ["why"], ["list"]), of_programs()))
        self.assertTrue(all('"unexplained": 0' in text for text in told[::3]))

    def test_traces_that_lack_an_event(self):
        told = self.same(self.cases((["why"], ["stats"]), without_an_event()))
        self.assertEqual([text for text in told if "an error of the tool itself" in text], [])
        refused = ["doesn't follow" in text for text in told]
        self.assertTrue(any(refused) and not all(refused))

    def test_values(self):
        """What instructions make of drawn words, and of those at the edges of numbers with and without a sign."""
        draw = random.Random(5)
        edges = [0, 1, 2, 31, 32, 33, 0x7fffffff, 0x80000000, 0x80000001, 0xfffffffe, 0xffffffff]
        text, = self.same([["values", edges + [draw.getrandbits(32) for _ in range(30)]]])
        self.assertIn("['mulhsu', [0, ", text)

    def test_runs(self):
        """The instruction set's run of small, random and stored images: each step, what is loaded, and what is left."""
        draw, images = random.Random(9), [support.image_of_words(f"run{place}", words) for place, words in enumerate(PROGRAMS.values())]
        images += [aliasing.image(draw, f"run_random{number}") for number in range(6)] + sorted(glob.glob(support.example("*.elf")))
        told = self.same([["run", image, support.example("core.toml"), model, 600] for image in images for model in ("spectre", "futuristic")])
        self.assertTrue(any("end exit" in text for text in told) and any("end trap" in text for text in told))

    @unittest.skipIf(support.NO_PROGRAM, support.NO_PROGRAM)
    def test_verdicts(self):
        pairs = [(support.example(f"{name}.elf"), support.example(other)) for name, other in (
            ("bounds_check", "bounds_check_other.elf"), ("tainted_store", "tainted_store.elf"), ("store_bypass", "store_bypass.elf"))]
        self.same([["verdict", support.PROGRAM, described, *pair, 1000] for pair in pairs
                   for described in sorted(glob.glob(support.example("core*.toml")))])

    def test_only_where_they_are_of_these_sources(self):
        self.assertEqual(self.taken([]), "True")
        self.assertEqual(self.taken(["index", "a.trace"]), "False")
        with open(os.path.join(self.folder.name, faster.STAMP), encoding="ascii") as file:
            kept = file.read()
        self.addCleanup(self.write_stamp, kept)
        self.write_stamp("of other sources")
        self.assertEqual(self.taken([]), "False")

    def write_stamp(self, text):
        with open(os.path.join(self.folder.name, faster.STAMP), "w", encoding="ascii") as file:
            file.write(text)

    def taken(self, words):
        script = f"import sys; sys.path.insert(0, {SOURCES!r}); from wadrelwy.view import faster; print(faster.by_compiled({words!r}, {self.folder.name!r}))"
        return subprocess.run([sys.executable, "-c", script], capture_output=True, text=True, timeout=60).stdout.strip()


class Command(unittest.TestCase):
    def test_what_is_missing_is_told(self):
        """What was compiled before stays."""
        before = are_compiled()
        answer = subprocess.run([sys.executable, os.path.join(TOOLS, "compile")], capture_output=True, text=True, timeout=60,
                                env={"PATH": "/nowhere"})
        self.assertEqual((answer.stdout, answer.returncode), ("", 2))
        self.assertRegex(answer.stderr, r"^compile: no cython3; .*\n$")
        self.assertEqual(are_compiled(), before)
