"""Sweeps: descriptions with other values, plans, runs that go on where they stopped, lists of commands, tables and plots. The simulator is a
stand-in whose cycles follow from what is set, so that each number here is made by hand."""
import ast
import csv
import glob
import hashlib
import json
import os
import re
import resource
import shutil
import signal
import subprocess
import sys
import tempfile
import time
import unittest
import xml.etree.ElementTree as ElementTree
from types import SimpleNamespace

TOOLS = os.path.dirname(os.path.dirname(os.path.dirname(os.path.abspath(__file__))))
ROOT = os.path.dirname(TOOLS)
from wadrelwy import built_programs
from wadrelwy.counting import numbers
from wadrelwy.sweep import kept, lists, plan, plots, results, settings
from wadrelwy.view import Fault, description

PROGRAM, STATS = built_programs.simulator(), built_programs.program(built_programs.STATS)
DESCRIPTION = """# a core
version = 2  # the second

[core]
rob = 32  # in flight
loads = 4

[stt]
model = "spectre"
"""
# 1000 cycles without protection, 1100 under spectre, 1250 under futuristic, 100 more under hold and 400 under delay; 8 fewer for each entry of the
# window, 500 more for what was built at O0; each run leaves a mark. What is killed, or retires otherwise, a word of the environment says
STAND_IN = """#!/bin/sh
[ "$1" = isa ] && { grep -q trap $2 && echo "end trap 5 00010010 retired 3" && exit 1; echo "end exit 0 retired ${ISA:-500}"; exit 0; }
[ "$1 $4" = "run --cycles" ] || exit 2
if grep -q '^bad' $2; then echo "description K2 core.bad" >&2; exit 4; fi
[ "$5" = 1 ] && echo "end budget retired 1 cycles 1" && exit 3
[ -n "$SLOW" ] && sleep $SLOW
echo x >> RAN
grep -q trap $3 && echo "end trap 5 00010010 retired 3 cycles 9" && exit 1
[ "$5" = 700 ] && echo "end budget retired 300 cycles 700" && exit 3
[ -n "$KILL" ] && grep -q "$KILL" $3 && kill -9 $$
cycles=1000
grep -q '^model = "spectre"' $2 && cycles=1100
grep -q '^model = "futuristic"' $2 && cycles=1250
grep -q '^defence = "hold"' $2 && ! grep -q '^model = "off"' $2 && cycles=$((cycles + 100))
grep -q '^defence = "delay"' $2 && ! grep -q '^model = "off"' $2 && cycles=$((cycles + 400))
grep -q 'built at O0' $3 && cycles=$((cycles + 500))
rob=$(sed -n 's/^rob = \\([0-9]*\\).*/\\1/p' $2)
echo "out 00"
echo "end exit 0 retired ${RETIRED:-500} cycles $((cycles - 8 * rob))"
"""
# the stand-in beside it that counts: two of each but what retired, and of two slots a cycle the others for the end of the run; a word of the
# environment says another number, or another end
COUNTING = """#!/bin/sh
said=$(STAND_IN run "$@")
status=$?
last=$(echo "$said" | tail -n 1)
case $last in end*) ;; *) exit $status ;; esac
[ -n "$OTHER" ] && last=${last%[0-9]}
retired=$(echo "$last" | sed 's/.*retired \\([0-9]*\\).*/\\1/')
echo "retired $retired"
for name in NAMES; do echo "$name ${COUNTED:-2}"; done
for name in SLOTS; do
  case $name in slots_base) echo "$name $retired" ;; slots_end) echo "$name $((2 * ${last##* } - retired))" ;; *) echo "$name 0" ;; esac
done
echo "$last"
exit $status
"""


class Folder(unittest.TestCase):
    """A folder with two images, a description and a simulator."""

    def setUp(self):
        kept = tempfile.TemporaryDirectory()
        self.addCleanup(kept.cleanup)
        self.folder = kept.name
        self.ran = self.write("ran", "")
        self.program = self.write("stand_in", STAND_IN.replace("RAN", self.ran))
        os.chmod(self.program, 0o755)
        self.images = [self.write(name, name) for name in ("one.elf", "two.elf")]
        self.description = self.write("core.toml", DESCRIPTION)
        self.out = os.path.join(self.folder, "out")

    def write(self, name, text):
        path = os.path.join(self.folder, name)
        with open(path, "w", encoding="utf-8") as file:
            file.write(text)
        return path

    def read(self, name):
        with open(os.path.join(self.folder, name), encoding="utf-8") as file:
            return file.read()

    def runs(self):
        with open(self.ran, encoding="utf-8") as file:
            return len(file.readlines())

    def words(self, *more):
        return [self.out, "--programs", *self.images, "--descriptions", self.description, "--program", self.program, *more]

    def without_built(self, environment):
        """An environment without the built programs."""
        return {name: value for name, value in environment.items() if (name, value) not in (("STT_CLI", PROGRAM), ("STT_STATS", STATS))}

    def sweep(self, *words, **more):
        """The command's answer; where no program is named, it is none of the environment's."""
        more["env"] = self.without_built(more.get("env", os.environ))
        return subprocess.run([sys.executable, os.path.join(TOOLS, "wadrelwy"), "sweep", *words], capture_output=True, text=True, check=False,
                              **more)

    def rows(self):
        with open(os.path.join(self.out, "results.csv"), encoding="utf-8") as file:
            return list(csv.DictReader(file))


class Counted(Folder):
    """Runs that stt_stats makes."""

    def setUp(self):
        super().setUp()
        self.counting = self.write("stt_stats", COUNTING.replace("STAND_IN", self.program).replace("NAMES", " ".join(numbers.COUNTS[1:]))
                                   .replace("SLOTS", " ".join(numbers.SLOTS)))
        os.chmod(self.counting, 0o755)

    def test_columns(self):
        told = self.sweep(*self.words("--set", "stt.model=off,spectre"))
        self.assertEqual((told.returncode, told.stderr), (0, ""))
        self.assertNotIn("no program stt_stats", told.stdout)
        for row in self.rows():
            self.assertEqual((row["retired"], row["load_misses_per_thousand"], row["mispredictions_per_thousand"]), ("500", "8.0", "8.0"))
            self.assertEqual((row["slots_base"], row["slots_load_memory"]), ("500", "0"))
            self.assertEqual(int(row["slots_base"]) + int(row["slots_end"]), 2 * int(row["cycles"]))
            self.assertGreater(float(row["host_seconds"]), 0)
            self.assertTrue(row["made_by"].startswith(f"stt_stats sha256 {kept.sha256(kept.content(self.counting))}, stand_in sha256 "))
        self.assertEqual([row["cycles"] for row in self.rows()], ["744", "744", "844", "844"])
        self.assertEqual(json.loads(self.read("out/results.json"))[0]["load_misses_per_thousand"], 8.0)

    def test_without_it(self):
        """The tables are as ever, and that is told; and a run's name has the program that counted it."""
        self.sweep(*self.words())
        counted = set(os.listdir(os.path.join(self.out, "results")))
        os.remove(self.counting)
        told = self.sweep(*self.words())
        self.assertEqual((told.returncode, told.stderr), (0, ""))
        self.assertIn("without misses, mispredictions and host seconds: no program stt_stats was found", told.stdout)
        self.assertNotIn("host_seconds", self.rows()[0])
        self.assertEqual(len(set(os.listdir(os.path.join(self.out, "results"))) - counted), 2)

    def test_it_goes_on(self):
        self.sweep(*self.words())
        ran, rows = self.runs(), self.rows()
        self.assertEqual(self.sweep(self.out).returncode, 0)
        self.assertEqual((self.runs(), self.rows()), (ran, rows))

    def test_a_list_from_before(self):
        """A result that was counted is there for a line of a list, too: nothing is made, and nothing that was counted is lost."""
        self.assertEqual(self.sweep(*self.words("--list")).returncode, 0)
        lines = self.read("out/commands").splitlines()
        self.assertEqual(self.sweep(self.out).returncode, 0)
        ran, rows = self.runs(), self.rows()
        self.assertEqual([subprocess.run(["sh", "-c", line], check=False).returncode for line in lines], [0, 0])
        self.assertEqual(self.sweep(self.out, "--gather").returncode, 0)
        self.assertEqual((self.runs(), self.rows(), "host_seconds" in rows[0]), (ran, rows, True))

    def test_results_of_two_folders(self):
        """How long a run took may differ; what was counted may not; and a result without counts is one, too."""
        self.sweep(*self.words())
        other = os.path.join(self.folder, "other")
        shutil.copytree(self.out, other)
        name = sorted(os.listdir(os.path.join(other, "results")))[0]
        text = self.read(f"other/results/{name}")
        seconds = text.splitlines()[0]
        for changed, status in ((text.replace(seconds, "host_seconds 9.5"), 0), (text.replace("fills 2", "fills 3"), 16),
                                (f"{text.splitlines()[-2]} of {name}\n", 0)):
            self.write(f"other/results/{name}", changed)
            self.assertEqual(self.sweep(self.out, "--gather", "--from", other).returncode, status, changed[:30])

    def test_a_result_that_is_cut(self):
        self.sweep(*self.words())
        name = sorted(os.listdir(os.path.join(self.out, "results")))[0]
        text = self.read(f"out/results/{name}")
        self.write(f"out/results/{name}", text.replace("mul 2\n", ""))
        told = self.sweep(self.out, "--gather")
        self.assertEqual(told.returncode, 3)
        self.assertIn("its result is none", told.stderr)

    def test_one_that_is_of_another_machine(self):
        told = self.sweep(*self.words(), env=os.environ | {"OTHER": "1"})
        self.assertEqual((told.returncode, told.stderr.count("\n")), (2, 1))
        self.assertIn("are they of one build?", told.stderr)

    def test_one_that_changed(self):
        self.sweep(*self.words())
        with open(self.counting, "a", encoding="utf-8") as file:
            file.write("# edited\n")
        self.assertIn(f"{self.counting} isn't what it was", self.sweep(self.out).stderr)
        self.assertEqual(self.sweep(self.out, "--copies").returncode, 0)
        self.assertIn("no program /nowhere", self.sweep(self.out, "--stats-program", "/nowhere").stderr)

    def test_another_that_is_named(self):
        self.sweep(*self.words())
        self.assertIn("isn't the program by which", self.sweep(self.out, "--stats-program", self.program).stderr)


class Settings(unittest.TestCase):
    def test_values_in_a_text(self):
        cases = [
            ({"core.rob": 64}, "rob = 32  # in flight\n", "rob = 64\n"),
            ({"stt.model": "off"}, 'model = "spectre"\n', 'model = "off"\n'),
            ({"version": 1}, "version = 2  # the second\n", "version = 1\n"),
        ]
        for values, gone, there in cases:
            with self.subTest(values=values):
                made = settings.with_values(DESCRIPTION, values, "core.toml")
                self.assertNotIn(gone, made)
                self.assertIn(there, made)
                self.assertEqual(settings.parsed(made, "core.toml"), settings.parsed(DESCRIPTION, "core.toml") | values)

    def test_keys_that_were_left_out(self):
        values = {"predictor.depend": 16, "core.queue": 4, "stt.defence": "hold"}
        made = settings.with_values(DESCRIPTION, values, "core.toml")
        self.assertEqual(settings.parsed(made, "core.toml"), settings.parsed(DESCRIPTION, "core.toml") | values)

    def test_words(self):
        self.assertEqual(settings.asked("core.rob=16,32"), ("core.rob", [16, 32]))
        self.assertEqual(settings.asked("stt.model=off,spectre"), ("stt.model", ["off", "spectre"]))
        for word in ("core.rob", "core.rob=", "=3", "core.rob=1,,2", "Core=1", "core.rob=" + "9" * 5000, "core.rob=\udcff", "core.rob=\u0661"):
            with self.subTest(word=word), self.assertRaises(Fault):
                settings.asked(word)


class Defences(unittest.TestCase):
    """A defence has its name in one place of the package, and all that goes over defences follows that."""

    def test_one_place_has_their_names(self):
        for path in sorted(glob.glob(os.path.join(TOOLS, "src", "wadrelwy", "**", "*.py"), recursive=True)):
            if not path.endswith(os.path.join("view", "description.py")):
                with open(path, encoding="utf-8") as file:
                    words = {node.value for node in ast.walk(ast.parse(file.read())) if isinstance(node, ast.Constant)}
                self.assertEqual({word for word in words if isinstance(word, str) and word in description.DEFENCES} - {"stt"}, set(), path)

    def test_each_under_both_models(self):
        found = [(values["stt.model"], values["stt.defence"]) for values in settings.DEFENCES]
        self.assertEqual(found[0], ("off", "stt"))
        self.assertEqual(set(found[1:]), {(model, name) for model in ("spectre", "futuristic") for name in description.DEFENCES})
        self.assertEqual(len(found), len(set(found)))
        self.assertEqual([settings.told(values) for values in settings.DEFENCES[:5]], ["off", "spectre", "futuristic", "spectre+hold",
                                                                                        "futuristic+hold"])

    def test_each_has_a_colour_of_its_own(self):
        looks = list(zip(plots.COLOURS, plots.DASHES))
        self.assertLessEqual(len(plots.ORDER), len(looks))
        self.assertEqual((len(set(plots.COLOURS)), len(looks)), (len(plots.COLOURS), len(plots.COLOURS)))


class Files(Folder):
    def test_no_longer_than_it_may_be(self):
        path = os.path.join(self.out, "long")
        os.makedirs(self.out, exist_ok=True)
        with open(path, "wb") as file:
            file.write(b"# " + b"." * 65533 + b"\n")
        self.assertEqual(len(kept.text(path)), 65536)
        for read in (lambda: kept.content(path, 65535), lambda: kept.text(path, 65535), lambda: kept.text("/dev/full", 65536)):
            with self.assertRaises(Fault) as told:
                read()
            self.assertIn("more than", str(told.exception))

    def test_endless(self):
        """A file without end is read no further than a description, or an image, may go."""
        for words in ([self.out, "--programs", *self.images, "--descriptions", "/dev/full", "--program", self.program],
                      [self.out, "--programs", "/dev/full", "--descriptions", self.description, "--program", self.program]):
            told = self.sweep(*words)
            self.assertEqual(told.returncode, 2)
            self.assertIn("/dev/full: more than ", told.stderr)

    def test_a_file_that_cant_be_written_whole(self):
        """It is told by its name, with the status of what can't be written, and nothing of it is left."""
        self.assertGreater(len(STAND_IN), 500)
        told = self.sweep(*self.words(), env=os.environ | {"PYTHONDONTWRITEBYTECODE": "1"},
                          preexec_fn=lambda: resource.setrlimit(resource.RLIMIT_FSIZE, (500, 500)))
        self.assertEqual((told.returncode, told.stdout), (7, ""))
        self.assertRegex(told.stderr, rf"\Awadrelwy sweep: {re.escape(self.out)}/programs/stand_in_[0-9a-f]{{16}}: File too large\n\Z")
        self.assertEqual(os.listdir(os.path.join(self.out, "programs")), [])
        with self.assertRaisesRegex(Fault, "^/nowhere/at/all: No such file or directory$"):
            kept.write("/nowhere/at/all", b"")

    def test_names(self):
        """As much of the folders as tells files apart, however deep that is."""
        deep = "/".join("abcdefghij")
        self.assertEqual(plan.names_of([f"/{build}/{deep}/x.elf" for build in ("one", "two")]), [f"{build}/{deep}/x" for build in ("one", "two")])


class Sweeps(Folder):
    def test_every_combination(self):
        told = self.sweep(*self.words("--set", "core.rob=25,50", "--defences"))
        self.assertEqual((told.returncode, told.stderr), (0, ""))
        self.assertEqual(self.runs(), 2 * 2 * 7)
        found = {(row["program"], row["core.rob"], row["defence"]): (int(row["cycles"]), row["slowdown"]) for row in self.rows()}
        self.assertEqual(len(found), 28)
        for program in ("one", "two"):
            self.assertEqual(found[program, "25", "off"], (800, "0.0"))
            self.assertEqual(found[program, "25", "spectre"], (900, "0.125"))
            self.assertEqual(found[program, "50", "futuristic"], (850, str(round(250 / 600, 6))))
            self.assertEqual(found[program, "50", "spectre+hold"], (800, str(round(200 / 600, 6))))
            self.assertEqual(found[program, "50", "futuristic+delay"], (1250, str(round(650 / 600, 6))))
        self.assertIn("core, core.rob 25: mean slowdown +12.5 % under spectre", told.stdout)
        with open(os.path.join(self.out, "results.json"), encoding="utf-8") as file:
            self.assertEqual(json.load(file)[0]["instructions_per_cycle"], 0.625)

    def test_goes_on_where_it_stopped(self):
        words = self.words("--set", "core.rob=10,20,30", "--set", "stt.model=off,spectre")
        self.assertEqual(self.sweep(*words).returncode, 0)
        self.assertEqual(self.runs(), 12)
        files = sorted(os.listdir(os.path.join(self.out, "results")))
        for name in files[:5]:
            os.remove(os.path.join(self.out, "results", name))
        told = self.sweep(self.out, "--gather")
        self.assertEqual((told.returncode, told.stdout.splitlines()[0][-13:], told.stderr.count("missing: ")), (3, "5 are missing", 5))
        self.assertEqual(self.sweep(self.out, "--program", self.program).returncode, 0)
        self.assertEqual(self.runs(), 17)
        self.write("one.elf", "another program")  # whose results are others
        self.assertEqual(self.sweep(*words).returncode, 0)
        self.assertEqual(self.runs(), 23)

    def test_another_budget(self):
        """The folder alone goes on with its own budget, and is refused with another."""
        self.assertEqual(self.sweep(*self.words("--cycles", "5000", "--list")).returncode, 0)
        told = self.sweep(self.out, "--cycles", "700")
        self.assertEqual((told.returncode, told.stdout, told.stderr.count("\n")), (2, "", 1))
        self.assertIn("was planned with --cycles 5000, and not with 700", told.stderr)
        self.assertEqual((self.sweep(self.out, "--cycles", "5000").returncode, self.runs()), (0, 2))

    def test_two_descriptions_of_one_text(self):
        """What they ask for is one run of each program, which is made once, and each description has its rows."""
        words = ["--programs", *self.images, "--descriptions", self.description, self.write("other.toml", DESCRIPTION), "--program", self.program]
        told = self.sweep(self.out, *words)
        self.assertEqual((told.returncode, told.stderr, self.runs()), (0, "", 2))
        self.assertEqual([(row["description"], row["program"], row["cycles"]) for row in self.rows()],
                         [(name, program, "844") for name in ("core", "other") for program in ("one", "two")])
        self.assertIn("2 commands in ", self.sweep(f"{self.out}_listed", *words, "--list").stdout)

    def test_interrupt(self):
        words = [sys.executable, os.path.join(TOOLS, "wadrelwy"), "sweep", *self.words("--set", "core.rob=1,2,3,4,5,6", "--jobs", "2")]
        child = subprocess.Popen(words, stdout=subprocess.PIPE, stderr=subprocess.PIPE, text=True,
                                 env=self.without_built(os.environ) | {"SLOW": "0.3"})
        while not self.runs():
            time.sleep(0.05)
        child.send_signal(signal.SIGINT)
        _, note = child.communicate(timeout=20)
        self.assertEqual((child.returncode, note), (130, "wadrelwy sweep: interrupted; the same command goes on where it stopped\n"))
        self.assertEqual([name for name in os.listdir(os.path.join(self.out, "results")) if name.endswith(".part")], [])
        begun = self.runs()
        self.assertLess(begun, 12)
        self.assertEqual(self.sweep(self.out, "--program", self.program).returncode, 0)
        self.assertEqual(len(self.rows()), 12)

    def test_lists(self):
        told = self.sweep(*self.words("--set", "core.rob=10,20", "--list"))
        self.assertEqual((told.returncode, self.runs()), (0, 0))
        self.assertIn("4 commands", told.stdout)
        subprocess.run(["sh", os.path.join(self.out, "commands")], check=True)
        gathered = self.sweep(self.out, "--gather")
        self.assertEqual((gathered.returncode, self.runs(), len(self.rows())), (0, 4, 4))
        again = self.sweep(*self.words("--set", "core.rob=10,20,30", "--list"))
        self.assertIn("2 commands", again.stdout)
        for task in ("1", "2"):
            self.assertEqual(self.task(task), 0)
        self.assertEqual((self.sweep(self.out, "--gather").returncode, len(self.rows())), (0, 6))
        self.assertEqual(self.runs(), 6)

    def task(self, number, **more):
        """A task of the job array, as Slurm would run it."""
        return subprocess.run(["sh", os.path.join(self.out, "array.sh")], check=False, env=os.environ | {"SLURM_ARRAY_TASK_ID": number} | more,
                              stderr=subprocess.DEVNULL).returncode

    def test_killed(self):
        """A line keeps the status of its run, what was killed leaves no result, and the table is made of the rest."""
        self.assertEqual(self.sweep(*self.words("--set", "stt.model=off,spectre", "--list")).returncode, 0)
        lines = self.read("out/commands").splitlines()
        killed = [subprocess.run(["sh", "-c", line], check=False, env=os.environ | {"KILL": "two"}, stderr=subprocess.DEVNULL).returncode
                  for line in lines]
        self.assertEqual(sorted(killed), [0, 0, 137, 137])
        told = self.sweep(self.out, "--gather")
        self.assertEqual((told.returncode, len(self.rows())), (3, 2))
        self.assertIn("2 are missing", told.stdout)
        self.assertEqual(sorted(re.findall(r"missing: (.*): no result", told.stderr)), ["two core stt.model=off", "two core stt.model=spectre"])
        self.assertEqual([subprocess.run(["sh", "-c", line], check=False).returncode for line in lines], [0] * 4)
        self.assertEqual((self.sweep(self.out, "--gather").returncode, self.runs()), (0, 6))

    def test_statuses_of_lines(self):
        self.write("two.elf", "trap")
        self.assertEqual(self.sweep(*self.words("--list")).returncode, 0)
        for _ in range(2):
            self.assertEqual([subprocess.run(["sh", "-c", line], check=False).returncode for line in self.read("out/commands").splitlines()], [0, 1])
        self.assertEqual(self.runs(), 2)
        self.assertEqual(self.sweep(*self.words("--cycles", "700", "--list")).returncode, 0)
        self.assertEqual([subprocess.run(["sh", "-c", line], check=False).returncode for line in self.read("out/commands").splitlines()], [3, 1])

    def test_a_line_whose_result_is_none(self):
        """What stands for a result and is none of these tools' has no status of a run that is over, and is told as missing."""
        self.assertEqual(self.sweep(*self.words("--list")).returncode, 0)
        lines = self.read("out/commands").splitlines()
        for line, text in zip(lines, ("end exi", "said")):
            self.write(f"out/results/{line.split()[1]}", f"{text} 0 retired 500 cycles 9 of {line.split()[1]}\n")
        self.assertEqual([subprocess.run(["sh", "-c", line], check=False).returncode for line in lines], [3, 3])
        told = self.sweep(self.out, "--gather")
        self.assertEqual((told.returncode, told.stderr.count("its result is none: it was cut, or is another's")), (3, 2))

    def test_tasks(self):
        """Lines are dealt by cost; a task that was killed goes on, though the last line of its file was cut."""
        self.assertEqual(self.sweep(*self.words("--set", "core.rob=10,20,30", "--list", "--tasks", "2", "--minutes", "7", "--memory", "99")).returncode, 0)
        array = self.read("out/array.sh")
        for line in ("--array=1-2", "--time=7", "--mem=99M", f"--output={self.out}/said/%a"):
            self.assertIn(line, array)
        self.assertEqual([len(self.read(f"out/tasks/{task}").splitlines()) for task in (1, 2)], [3, 3])
        self.assertEqual(self.task("1", KILL="."), 137)
        self.assertEqual(self.task("2"), 0)
        self.assertEqual(sorted(os.listdir(os.path.join(self.out, "results"))), ["task_2"])
        text = self.read("out/results/task_2")
        self.write("out/results/task_2", text[:-20])
        self.assertEqual((self.sweep(self.out, "--gather").returncode, len(self.rows())), (3, 2))
        self.assertEqual((self.task("1"), self.task("2")), (0, 0))
        self.assertEqual((self.sweep(self.out, "--gather").returncode, len(self.rows()), self.runs()), (0, 6, 3 + 3 + 3 + 1))

    def test_costs(self):
        parts = lists.dealt([SimpleNamespace(cost=cost) for cost in (8, 1, 1, 5, 4, 1)], 2)
        self.assertEqual(sorted(sum(run.cost for run in part) for part in parts), [10, 10])

    def test_make(self):
        if shutil.which("make") is None:
            self.skipTest("no make")
        self.write("two.elf", "trap")
        self.assertEqual(self.sweep(*self.words("--set", "core.rob=10,20", "--list")).returncode, 0)
        words = ["make", "-s", "-k", "-j2", "-f", os.path.join(self.out, "rules.mk")]
        killed = subprocess.run(words, check=False, env=os.environ | {"KILL": "one"}, capture_output=True)
        self.assertEqual((killed.returncode, self.runs(), len(os.listdir(os.path.join(self.out, "results")))), (2, 4, 2))
        self.assertEqual(subprocess.run(words, check=False, capture_output=True).returncode, 0)
        self.assertEqual((self.sweep(self.out, "--gather").returncode, len(self.rows()), self.runs()), (12, 4, 6))

    def test_pack(self):
        """The archive is all that another machine needs; its results come back by --from."""
        self.assertEqual(self.sweep(*self.words("--set", "core.rob=10,20", "--list", "--pack")).returncode, 0)
        for host, lines in [("host1", slice(0, 2)), ("host2", slice(2, 4))]:
            there = os.path.join(self.folder, host)
            os.mkdir(there)
            subprocess.run(["tar", "xf", f"{self.out}.tar.gz", "-C", there], check=True)
            for line in self.read(f"{host}/out/commands").splitlines()[lines]:
                subprocess.run(["sh", "-c", line], check=True, cwd=there)
        others = [os.path.join(self.folder, host, "out") for host in ("host1", "host2")]
        told = self.sweep(self.out, "--gather", "--from", *others)
        self.assertEqual((told.returncode, len(self.rows())), (0, 4))
        self.assertIn("4 results came from", told.stdout)
        self.assertEqual(self.sweep(self.out, "--gather").returncode, 0)

    def test_what_is_shown_of_many(self):
        """Twenty lines of the summary, which stands in a file as a whole; bars of more than a hundred panels only where all is asked for."""
        values = ",".join(map(str, range(4, 4 + plots.MOST_PANELS + 1)))
        self.assertEqual(self.sweep(*self.words("--set", f"core.rob={values}", "--set", "stt.model=off,spectre", "--list")).returncode, 0)
        with open(os.path.join(self.out, "plan.json"), encoding="utf-8") as file:
            made = json.load(file)
        for run in [dict(zip(made["columns"], run)) for run in made["runs"]]:
            cycles = 100 if run["values"]["stt.model"] == "off" else 110
            self.write(os.path.join("out", run["result"]), f"end exit 0 retired 500 cycles {cycles} of {os.path.basename(run['result'])}\n")
        told = self.sweep(self.out, "--gather")
        self.assertEqual((told.returncode, told.stdout.count("mean slowdown +10.0 %")), (0, 20))
        self.assertIn(f"\nand {plots.MOST_PANELS - 19} more, in {self.out}/summary\n", told.stdout)
        self.assertEqual(self.read("out/summary").count("mean slowdown +10.0 %"), plots.MOST_PANELS + 1)
        self.assertIn("bars.svg is left out: it would have 101 panels; --plots all draws it\n", told.stdout)
        for asked, there in (("all", {"bars.svg", "curve-core.rob.svg"}), ("some", {"curve-core.rob.svg"}), ("none", set())):
            self.assertEqual(self.sweep(self.out, "--gather", "--plots", asked).returncode, 0)
            self.assertEqual(self.svgs(), there, asked)

    def svgs(self):
        return {name for name in os.listdir(self.out) if name.endswith(".svg")}

    def test_nothing_mixed(self):
        """A folder goes on with what it was planned of, or not at all: another image, description or simulator is refused, and so is a copy
        that isn't what its name says."""
        words = self.words("--set", "stt.model=off,spectre")
        self.assertEqual(self.sweep(*words).returncode, 0)
        for name in ("one.elf", "core.toml", "stand_in"):
            with self.subTest(name=name):
                path, kept = os.path.join(self.folder, name), self.read(name)
                results = os.path.join(self.out, "results")
                os.remove(os.path.join(results, min(os.listdir(results))))
                with open(path, "a", encoding="utf-8") as file:
                    file.write("# another\n")
                for more in ([], ["--gather"]):
                    told = self.sweep(self.out, *more)
                    self.assertEqual((told.returncode, told.stdout), (2, ""))
                    self.assertIn(f"{path} isn't what it was", told.stderr)
                ran = self.runs()
                self.assertEqual((self.sweep(self.out, "--copies").returncode, self.runs()), (0, ran + 1))
                self.write(name, kept)
        other = self.write("other", self.read("stand_in") + "# another")
        os.chmod(other, 0o755)
        for told in (self.sweep(self.out, "--program", other), self.sweep(self.out, env=os.environ | {"STT_CLI": other})):
            self.assertEqual(told.returncode, 2)
            self.assertIn("isn't the program by which", told.stderr)

    def test_copies_that_were_changed(self):
        self.assertEqual(self.sweep(*self.words("--list")).returncode, 0)
        for kind in ("images", "descriptions", "programs"):
            with self.subTest(kind=kind):
                name = os.path.join("out", kind, min(os.listdir(os.path.join(self.out, kind))))
                kept = self.read(name)
                with open(os.path.join(self.folder, name), "a", encoding="utf-8") as file:
                    file.write("# another\n")
                for more in ([], ["--gather"]):
                    told = self.sweep(self.out, *more)
                    self.assertEqual((told.returncode, told.stdout), (2, ""))
                    self.assertIn(f"{name} isn't what was asked of", told.stderr)
                with open(os.path.join(self.out, "commands"), encoding="utf-8") as file:
                    told = subprocess.run(["sh", "-c", file.readline()], capture_output=True, text=True, check=False)
                self.assertEqual(told.returncode, 2)
                self.assertIn("isn't what was planned", told.stderr)
                self.write(name, kept)
        self.assertEqual(self.runs(), 0)

    def test_one_program_has_one_number(self):
        """Runs of one image that retire unlike numbers can't be of it, and neither can those that the instruction set ends otherwise."""
        words = self.words("--set", "stt.model=off,spectre")
        self.assertEqual(self.sweep(*words).returncode, 0)
        results = os.path.join(self.out, "results")
        os.remove(os.path.join(results, min(os.listdir(results))))
        told = self.sweep(self.out, env=os.environ | {"RETIRED": "501"})
        self.assertEqual((told.returncode, told.stdout), (16, ""))
        self.assertIn("exit 0 retired 501, and the instruction set: exit 0 retired 500. One program has one end", told.stderr)
        told = self.sweep(*self.words("--set", "stt.model=off,futuristic"), env=os.environ | {"ISA": "499"})
        self.assertEqual(told.returncode, 16)

    def test_a_refused_description(self):
        """It is a row, found before the first run, and the others are run."""
        told = self.sweep(*self.words("--set", "core.bad=1,2", "--list"))
        self.assertEqual((told.returncode, self.runs()), (2, 0), "nothing is left to run")
        described = self.write("worse.toml", DESCRIPTION.replace("rob", "bad"))
        told = self.sweep(self.out, "--programs", *self.images, "--descriptions", described, self.description, "--program", self.program)
        self.assertEqual((told.returncode, self.runs()), (3, 2))
        self.assertIn("worse: refused K2", told.stderr)
        self.assertIn("2 of 4 runs are refused, and have no slowdown: one worse (refused K2)", told.stdout)
        self.assertEqual([(row["description"], row["end"], row["cycles"]) for row in self.rows()], [
            ("worse", "refused K2", ""), ("worse", "refused K2", ""), ("core", "exit 0", "844"), ("core", "exit 0", "844")])

    def test_ends(self):
        """A run that ended by a trap or its budget has no slowdown, and is told as such."""
        self.write("two.elf", "trap")
        told = self.sweep(*self.words("--set", "core.rob=25", "--defences"))
        self.assertEqual(told.returncode, 12)
        self.assertIn("7 of 14 runs end by a trap, and have no slowdown: two core core.rob=25", told.stdout)
        self.assertIn("+12.5 % under spectre (n 1, ", told.stdout)
        self.assertEqual({row["slowdown"] for row in self.rows() if row["program"] == "two"}, {""})
        told = self.sweep(*self.words("--set", "core.rob=25", "--defences", "--cycles", "700"))
        self.assertEqual(told.returncode, 3)
        self.assertIn("7 of 14 runs were ended by the budget", told.stdout)
        self.assertNotIn("mean slowdown", told.stdout)
        self.assertEqual({row["slowdown"] for row in self.rows()}, {""})

    def test_spread(self):
        row = results.Row("p", "d", {}, "spectre", "exit 0", 10, 90, 0.1)
        rows = [row._replace(program=str(at), slowdown=at / 10) for at in range(4)]
        [line] = plots.summary(rows)
        self.assertRegex(line, r"^d: mean slowdown \+14\.\d % under spectre \(n 4, median \+15\.0 %, 0\.0 % to \+30\.0 %\)$")
        rows = [row._replace(values={"core.rob": size, "cache.sets": sets}) for size in (8, 16) for sets in (2, 4)]
        self.assertIn("the mean of n = 2 runs that exited, over 1 programs and cache.sets 2, 4", plots.curves(rows, "core.rob"))

    def test_cited(self):
        self.assertEqual(self.sweep(*self.words()).returncode, 0)
        sum_of = hashlib.sha256(self.read("stand_in").encode()).hexdigest()
        self.assertEqual({row["made_by"].split(", ")[0] for row in self.rows()}, {f"stand_in sha256 {sum_of}"})
        self.assertRegex(json.loads(self.read("out/plan.json"))["cited"], rf"^stand_in sha256 {sum_of}, kit \S.*, commit \S+")

    def test_an_unproved_simulator_by_another_name(self):
        """Tables say so, though the name by which it was given doesn't."""
        unproved, link = self.write("stt_cli-unproved", self.read("stand_in")), os.path.join(self.folder, "linked")
        os.chmod(unproved, 0o755)
        os.symlink(unproved, link)
        self.assertEqual(self.sweep(self.out, "--programs", *self.images, "--descriptions", self.description, "--program", link).returncode, 0)
        sum_of = hashlib.sha256(self.read("stand_in").encode()).hexdigest()
        self.assertEqual({row["made_by"].split(", kit ")[0] for row in self.rows()}, {f"linked, unproved, sha256 {sum_of}"})

    def test_refusals(self):
        self.write("cut", "")
        text = self.write("bytes.toml", "")
        with open(text, "wb") as file:
            file.write(b"\xff\xfe")
        cases = [
            (self.words("--set", "core.bad=1"), "description K2 core.bad: there is no key `core.bad`"),
            (self.words("--set", "core.rob"), "KEY=VALUE"),
            (self.words("--set", "core.rob=1", "--set", "core.rob=2"), "core.rob is set twice"),
            (self.words("--set", "stt.model=off", "--defences"), "stt.model is set twice"),
            ([self.out, "--programs", "/nowhere.elf", "--descriptions", self.description, "--program", self.program], "/nowhere.elf"),
            ([self.out, "--programs", *self.images, "--descriptions", text, "--program", self.program], "no text"),
            ([self.out, "--programs", *self.images, "--descriptions", self.images[0], "--program", self.program], "no TOML"),
            ([os.path.join(self.folder, "none")], "plan.json"),
            ([self.out, "--programs", *self.images, self.images[0], "--descriptions", self.description, "--program", self.program],
             "a file is named twice, or two have one name but for its ending"),
            ([self.out, "--programs", *self.images, self.write("one.bin", "one"), "--descriptions", self.description, "--program", self.program],
             f"one name but for its ending: {self.images[0]} and {self.folder}/one.bin"),
            ([self.out, "--set", "core.rob=1"], "a sweep has programs and descriptions"),
        ]
        for words, note in cases:
            with self.subTest(note=note):
                told = self.sweep(*words)
                self.assertEqual(told.returncode, 2)
                self.assertIn(note, told.stderr)
                self.assertNotIn("Traceback", told.stderr)

    def test_a_result_that_is_none(self):
        self.assertEqual(self.sweep(*self.words()).returncode, 0)
        name = os.listdir(os.path.join(self.out, "results"))[0]
        self.write(os.path.join("out", "results", name), "nonsense\n")
        told = self.sweep(self.out, "--gather")
        self.assertEqual((told.returncode, len(self.rows())), (3, 1))
        self.assertRegex(told.stderr, rf"wadrelwy sweep: missing: \w+ core: its result is none: .*{name}")
        self.assertEqual((self.sweep(self.out).returncode, len(self.rows()), self.runs()), (0, 2, 3))


class Builds(Folder):
    def test_against_one_of_them(self):
        """Programs of one name in folders are builds of it: each is told by how much longer it takes than that of the named folder."""
        self.images = []
        for build in ("O0", "O2"):
            os.mkdir(os.path.join(self.folder, build))
            self.images += [self.write(f"{build}/{name}.elf", f"{name} built at {build}") for name in ("one", "two")]
        told = self.sweep(*self.words("--set", "stt.model=off,spectre", "--against", "O2"))
        self.assertEqual((told.returncode, told.stderr), (0, ""))
        against = {(row["program"], row["stt.model"]): row["against"] for row in self.rows()}
        off, spectre = 1000 - 8 * 32, 1100 - 8 * 32
        for name in ("one", "two"):
            for model, cycles in (("off", off), ("spectre", spectre)):
                self.assertEqual(float(against[f"O2/{name}", model]), 0)
                self.assertAlmostEqual(float(against[f"O0/{name}", model]), 500 / cycles, places=6)
        self.assertIn(f"core stt.model=off: O0 takes +{50000 / off:.1f} % against O2 (n 2, ", told.stdout)
        self.assertIn(f"core stt.model=spectre: O0 takes +{50000 / spectre:.1f} % against O2 (n 2, ", told.stdout)
        self.assertEqual(self.sweep(self.out, "--gather").returncode, 0)
        self.assertNotIn("against", self.rows()[0])
        told = self.sweep(self.out, "--gather", "--against", "O3")
        self.assertEqual((told.returncode, told.stdout, told.stderr.count("\n")), (2, "", 1))
        self.assertIn("builds are the folders by which names are told apart: O0, O2", told.stderr)


class Plots(Folder):
    def drawn(self, name):
        with open(os.path.join(self.out, name), encoding="utf-8") as file:
            return ElementTree.parse(file).getroot()

    def test_bars_and_curves(self):
        self.assertEqual(self.sweep(*self.words("--set", "core.rob=25,50", "--defences")).returncode, 0)
        tips = [tip.text for tip in self.drawn("bars.svg").iter("{http://www.w3.org/2000/svg}title")]
        bars = [tip for tip in tips if "," in tip]
        self.assertEqual(len(bars), 2 * 3 * 6)  # two sizes, two programs and the mean, six defences
        self.assertIn("one, spectre: +12.5 %", bars)
        self.assertIn("mean, futuristic: +41.7 % (n 2, median +41.7 %, +41.7 % to +41.7 %)", bars)
        tips = [tip.text for tip in self.drawn("curve-core.rob.svg").iter("{http://www.w3.org/2000/svg}title") if "core.rob" in tip.text]
        self.assertEqual(len(tips), 2 * (7 + 6))
        self.assertIn("off, core.rob 50: 0.83", tips)
        self.assertIn("spectre, core.rob 25: +12.5 %", tips)
        lines = {line.get("stroke-dasharray") for line in self.drawn("curve-core.rob.svg").iter("{http://www.w3.org/2000/svg}polyline")}
        self.assertEqual(len(lines), 6, "off and spectre are whole, each other has dashes of its own")

    def test_a_bar_below_zero(self):
        row = results.Row("p", "d", {}, "spectre", "exit 0", 10, 90, -0.1)
        drawn = plots.bars([row._replace(defence="off", slowdown=0.0), row])
        heights = [(float(y), float(height)) for y, height in re.findall(r'y="([\d.]+)" width="8.0" height="([\d.]+)"', drawn)]
        zero = next(float(y) for y in re.findall(r'<line x1="[\d.]+" y1="([\d.]+)"[^>]*stroke="#888"', drawn))
        self.assertEqual([y for y, _ in heights], [zero, zero])
        self.assertGreater(heights[0][1], 100)


    def test_all_panels_have_one_scale(self):
        """A bar of 40 % in one panel is a hundred times as high as one of 0.4 % in another."""
        row = results.Row("p", "d", {}, "spectre", "exit 0", 10, 90, 0.4)
        drawn = plots.bars([row, row._replace(description="e", slowdown=0.004)])
        heights = [float(height) for height in re.findall(r'width="8.0" height="([\d.]+)" fill="#2e86c1"><title>p,', drawn)]
        self.assertEqual(len(heights), 2)
        self.assertAlmostEqual(heights[0] / heights[1], 100, delta=8)

    def test_long_names_are_in_the_picture(self):
        """Turned names end below their bars: neither the left edge nor the bottom, nor the panel below, cuts them."""
        row = results.Row("clang-O0/b64_ct_with_a_long_name_of_its_own", "d", {}, "off", "exit 0", 10, 90, 0.0)
        rows = [each._replace(description=name, defence=defence) for each in (row, row._replace(program="p")) for name in "de"
                for defence in ("off", "spectre")]
        drawn = ElementTree.fromstring(plots.bars(rows))
        height, cos, sin = float(drawn.get("height")), 0.882, 0.470
        turned = [text for text in drawn.iter("{http://www.w3.org/2000/svg}text") if "rotate(-28" in (text.get("transform") or "")]
        self.assertEqual(len(turned), 2 * 3)
        tops = sorted(float(text.get("y")) for text in drawn.iter("{http://www.w3.org/2000/svg}text") if text.text.startswith("slowdown"))
        for text in turned:
            length, x, y = 6 * len(text.text), float(text.get("x")), float(text.get("y"))
            self.assertGreaterEqual(x - length * cos, 0, text.text)
            self.assertLessEqual(y + length * sin, min([top for top in tops if top > y], default=height), text.text)


@unittest.skipUnless(PROGRAM, "the program isn't built")
class WithProgram(Folder):
    def test_a_gadget(self):
        gadget = os.path.join(ROOT, "examples", "bounds_check.elf")
        told = self.sweep(self.out, "--programs", gadget, "--descriptions", os.path.join(ROOT, "examples", "core_passing.toml"), "--defences",
                          "--program", PROGRAM)
        self.assertEqual((told.returncode, told.stderr), (0, ""))
        self.assertEqual([(row["end"], row["cycles"]) for row in self.rows()], [("exit 0", "21")] * 7)


GCC = "riscv64-unknown-elf-gcc"


@unittest.skipUnless(PROGRAM, "the program isn't built")
@unittest.skipUnless(shutil.which("make") and shutil.which(GCC), "no make or gcc for RISC-V")
class Results(Folder):
    """Rows of the table of docs/results.md are what its command finds, with the compiler that it names."""

    NAMES = ("chacha", "compress", "matrix")

    def test_rows(self):
        version = subprocess.run([GCC, "-dumpversion"], capture_output=True, text=True, check=True).stdout.strip()
        if not version.startswith("12.2"):
            self.skipTest("the table is of gcc 12.2")
        images = [os.path.join(self.folder, "gcc", "programs", f"{name}.elf") for name in self.NAMES]
        subprocess.run(["make", "-s", "-C", os.path.join(ROOT, "examples", "c"), f"BUILD={self.folder}", *images], check=True)
        told = self.sweep(self.out, "--programs", *images, "--descriptions", os.path.join(ROOT, "examples", "desktop.toml"), "--defences",
                          "--program", PROGRAM)
        self.assertEqual((told.returncode, told.stderr), (0, ""))
        found = {}
        for row in self.rows():
            cells = found.setdefault(row["program"], [row["retired"], row["cycles"]])
            if row["defence"] != "off":
                cells.append(f"{100 * float(row['slowdown']):+.1f}")
        with open(os.path.join(ROOT, "docs", "results.md"), encoding="utf-8") as file:
            page = file.read()
        for name in self.NAMES:
            cells = [cell.strip() for cell in re.search(rf"^\| `{name}` \|[^|]*\|(.*)\|$", page, re.M)[1].split("|")]
            self.assertEqual([cell.replace("-0.0", "0.0").replace("+0.0", "0.0") for cell in found[name]], cells, name)


if __name__ == "__main__":
    unittest.main()
