"""Estimates of a long run from short windows of it. The programs are a stand-in whose core takes as many cycles for an instruction as the
description's `mul_latency` where that multiplies, else one, and one more for each of the first 100 instructions of a run: so each window's cycles
are known by hand. What it counts has names of its own. The instruction set's run is the tools' own."""
import csv
import json
import os
import random
import shutil
import signal
import subprocess
import sys
import tempfile
import time
import unittest

import support
from generate.generated import generated_image
from wadrelwy import built_programs
from wadrelwy.sampling import chain, planned, refining, side_by_side
from wadrelwy.verdict.hart import Hart
from wadrelwy.verdict.loaded import load
from wadrelwy.view import Fault
from wadrelwy.view.description import read_description

SRC = os.path.join(support.ROOT, "tools", "src")
# from so many steps on the stand-in's programs only repeat themselves, so it goes over no more of them
FAR = 20000
STAND_IN = f"""#!{sys.executable}
import os, sys
sys.path.insert(0, {SRC!r})
from wadrelwy.verdict import hart
from wadrelwy.verdict.loaded import load
from wadrelwy.view.description import read_description
word, *words = sys.argv[1:]
image, text = (words[0], words[2]) if word == "isa" else (words[0], word)
machine = read_description(text)
if machine.rob == 13:
    sys.exit(print("description K5 core.rob 13", file=sys.stderr) or 4)
loaded = load(image, machine)
run = hart.Hart(loaded)
if word == "isa":
    for _ in run.run(min(int(words[-1]), {FAR})):
        pass
    said = hart.report(run, loaded)
    print(said if run.end else said.replace("end budget retired {FAR}", "end budget retired " + words[-1]), end="")
    sys.exit(0 if run.end else 3)
most, every = int(words[2]), int(words[4])
if most > 64:
    with open("RAN", "a") as ran:
        ran.write("x")
    if os.environ.get("KILL") and loaded.entry != 0x10000:
        os.kill(os.getpid(), 9)
NAMES = ("odd_words", "retired", "mul", "slots_1")
cycle, whole, part = 0, [0] * 4, [0] * 4

def passed(more):
    global cycle, part
    cycle += 1
    for at in range(4):
        whole[at] += more[at]
        part[at] += more[at]
    if cycle % every == 0:
        print(cycle, *part, flush=not cycle % 100)
        part = [0] * 4

def ended(end):
    print(*(f"{{name}} {{number}}" for name, number in zip(NAMES, whole)), f"{{end}} cycles {{cycle}}", sep="\\n", flush=True)

try:
    for at, step in enumerate(run.run(1 << 30)):
        mul = step.word >> 25 == 1 and step.word & 127 == 51
        for _ in range((machine.mul_latency if mul else 1) + (at < 100) - 1):
            passed((0, 0, 0, 4))
        passed((step.word & 1, 1, mul, 3))
        if cycle >= most:
            ended(f"end budget retired {{whole[1]}}")
            sys.exit(3)
    ended(hart.end_text(run.end, run.retired))
except BrokenPipeError:
    os.dup2(os.open(os.devnull, os.O_WRONLY), 1)
    sys.exit(7)
"""
# 60 rounds of 50 rounds of `addi, bne`, and 50 of `mul, addi, bne`; each stores its number in a word of its own from 0x20000 on
WORDS = (0x00020437, 0x03c00293, 0x03200313, 0xfff30313, 0xfe031ee3, 0x03200313, 0x026383b3, 0xfff30313, 0xfe031ce3, 0x00542023, 0x00440413,
         0xfff28293, 0xfc029ce3, 0x00000513, 0x05d00893, 0x00000073)
# 1700 rounds of `addi, bne`, and 2000 of `mul, addi, bne`
TWO_PHASES = (0x6a400313, 0xfff30313, 0xfe031ee3, 0x7d000313, 0x026383b3, 0xfff30313, 0xfe031ce3, 0x00000513, 0x05d00893, 0x00000073)
RETIRED = 2 + 60 * (1 + 100 + 1 + 150 + 4) + 3


class Folder(unittest.TestCase):
    """A folder with the image, a description and the stand-in."""

    def setUp(self):
        kept = tempfile.TemporaryDirectory()
        self.addCleanup(kept.cleanup)
        self.folder = kept.name
        self.ran, self.out = os.path.join(self.folder, "ran"), os.path.join(self.folder, "out")
        self.program, counting = (self.write(name, STAND_IN.replace("RAN", self.ran)) for name in ("stt_cli", "stt_stats"))
        for path in (self.program, counting):
            os.chmod(path, 0o755)
        self.programs = ("--program", self.program, "--stats-program", counting)
        self.image = os.path.join(self.folder, "two_loops.elf")
        shutil.copy(support.image_of_words("two_loops", WORDS), self.image)
        with open(support.example("medium.toml"), encoding="utf-8") as file:
            self.description = self.write("core.toml", file.read())

    def write(self, name, text):
        path = os.path.join(self.folder, name)
        with open(path, "w", encoding="utf-8") as file:
            file.write(text)
        return path

    def sample(self, *words, image=True, **more):
        files = [self.image, self.description] if image else []
        return subprocess.run([support.TOOL, "sample", "-o", self.out, *files, *self.programs, *words], capture_output=True, text=True, cwd=self.folder,
                              env=os.environ | more)

    def rows(self, name="windows.csv"):
        with open(os.path.join(self.out, name), encoding="utf-8") as file:
            return list(csv.DictReader(file))

    def measured(self):
        """How many windows were measured until now."""
        return os.path.getsize(self.ran) if os.path.exists(self.ran) else 0

    def costs(self, mul):
        """The cycles of each instruction of the run, but for what its first ones cost more."""
        machine = read_description(self.description)
        return [mul if step.word >> 25 == 1 and step.word & 127 == 51 else 1 for step in Hart(load(self.image, machine)).run(1 << 30)]


SHORT = ("--windows", "10", "--length", "100", "--jobs", "2")


class Chain(Folder):
    def chain(self, image, at=None, caches=None):
        loaded = load(image, read_description(self.description))
        return chain.Chain(self.program, loaded, self.description, chain.report(self.program, image, 1 << 30, self.description), at, caches)

    def test_each_image_goes_on(self):
        """Behind the instructions that come first registers, pc and memory are those of the whole run, in each of several images, and the chain ends alike."""
        chance = random.Random(3)
        images = [(support.file_of(f"sampled{seed}.elf", generated_image(seed, 12)), None) for seed in range(4)]
        for path, caches in [*images, (self.image, chain.Caches(64, 100)), (self.image, chain.Caches(16, 2))]:
            going = self.chain(path, caches=caches)
            for steps in sorted(chance.sample(range(1, going.whole.retired), 5)):
                whole, machine = Hart(load(path, read_description(self.description))), read_description(self.description)
                list(whole.run(steps))
                going.path = support.file_of(f"on{steps}.elf", going.to(steps))
                run = Hart(load(going.path, machine))
                self.assertEqual((len(list(run.run(going.extra))), going.extra > 63), (going.extra, bool(caches)))
                with self.subTest(path, steps=steps):
                    self.assertEqual((run.registers, run.pc), (whole.registers, whole.pc))
                    run.memory.data[going.at - machine.base:going.at - machine.base + going.size] = bytes(going.size)
                    self.assertEqual(run.memory.data, whole.memory.data)
            going.check_end()

    def test_parts(self):
        """In two parts each place has the image that it has in one, byte for byte, as its name tells; and so it is where there are few places."""
        for places, caches in ((range(900, 15001, 2350), chain.Caches(64, 100)), (range(1, 4), None)):
            found = []
            for most, count in ((1, 1), (8, 2 if len(places) > 3 else 1)):
                parts = side_by_side.cut(self.chain(self.image, caches=caches), places, most)
                self.assertEqual(len(parts), count)
                found.append(sorted(side_by_side.begins(parts, self.folder, "on")))
            self.assertEqual(found[0], found[1])
            self.assertEqual([begin.place for begin in found[0]], list(places))
        far = [side_by_side.FAR * at + 1 for at in range(1, 9)]
        going = self.chain(self.image)
        self.assertEqual([len(side_by_side.cut(going, places, 8)) for places in (far, [place - 1 for place in far], [])], [1, 2, 1])

    def test_parts_meet(self):
        """What a run reads at the place of the instructions that come first is found where the next part begins, though nothing is left of it at the
        end."""
        reads = (0x00020337, 0x00000013, 0x00000013, 0x00032383, 0x00000013, 0x00000013, 0x00000013, 0x00000393, 0x05d00893, 0x00000073)
        image = support.image_of_words("reads_and_clears", reads)
        parts = side_by_side.cut(self.chain(image, 0x20000), (1, 4, 5, 6), 2)
        with self.assertRaisesRegex(Fault, "ends otherwise than the whole one: it uses 00020000"):
            list(side_by_side.begins(parts, self.folder, "on"))

    def test_one_place_for_all(self):
        """The place is one that the whole run leaves alone: rows that it changes late are no gap."""
        going = self.chain(self.image)
        self.assertTrue(all(row not in range(going.at - 15, going.at + 252) for row in going.whole.rows))
        going.path = support.file_of("late.elf", going.to(100))
        first = going.at
        going.to(12000)
        self.assertEqual(going.at, first)

    def test_a_program_that_uses_the_place(self):
        """A place that the run writes is found before the first image; one that it only reads, or puts out, by the other
        end or output; one that it writes and puts back when that is met."""
        with self.assertRaisesRegex(Fault, "aren't all of memory that no segment takes"):
            self.chain(self.image, 0x20000)
        reads = (0x00020337, 0x00000013, 0x00000013, 0x00032503, 0x05d00893, 0x00000073)
        going = self.chain(support.image_of_words("reads", reads), 0x20000)
        going.path = support.file_of("read.elf", going.to(2))
        with self.assertRaisesRegex(Fault, "ends otherwise than the whole one"):
            going.check_end()
        puts_out = (0x000205b7, 0x00400613, 0x00100513, 0x04000893, 0x00000073, 0x00000513, 0x05d00893, 0x00000073)
        going = self.chain(support.image_of_words("puts_out", puts_out), 0x20000)
        going.path = support.file_of("put.elf", going.to(2))
        with self.assertRaisesRegex(Fault, "ends otherwise than the whole one"):
            going.check_end()
        back = (0x00020337, 0x00000013, 0x00632023, 0x00000013, 0x00032023, 0x05d00893, 0x00000073)
        going = self.chain(support.image_of_words("back", back), 0x20000)
        going.path = support.file_of("back_on.elf", going.to(2))
        with self.assertRaisesRegex(Fault, "the run uses 00020000"):
            going.to(4)


class Sampling(Folder):
    def test_windows_are_those_of_the_run(self):
        """Behind a warm-up that is longer than what is cold each window takes what the same instructions take in the whole run."""
        told = self.sample(*SHORT, "--warm", "300", "--set", "units.mul_latency=3,5")
        self.assertEqual((told.returncode, told.stderr), (0, ""))
        costs = {mul: self.costs(mul) for mul in (3, 5)}
        self.assertEqual(len(costs[3]), RETIRED)
        rows = self.rows()
        self.assertEqual(len(rows), 2 * (10 + 9))
        for row in rows:
            begin, taken = int(row["begin"]), int(row["last_cycle"]) - int(row["first_cycle"])
            with self.subTest(row):
                if begin >= 100:
                    self.assertEqual(taken, sum(costs[int(row["units.mul_latency"])][begin:begin + 100]))
                self.assertEqual((row["retired"], row["odd_words"]), ("100", "100"))
                self.assertEqual(int(row["mul"]), sum(cost > 1 for cost in costs[3][begin:begin + 100]))
        for row in self.rows("estimates.csv"):
            whole = (sum(costs[int(row["units.mul_latency"])]) + 100) / RETIRED
            self.assertLess(abs(float(row["cycles_per_instruction"]) - whole), float(row["half_interval"]))
            self.assertEqual((row["retired"], row["end"], row["windows"], row["is_proved"]), (str(RETIRED), "exit 0", "10", "False"))
            self.assertEqual((row["longer_windows"], float(row["longer_changes"])), ("9", 0))
        muls = sum(cost > 1 for cost in costs[3])
        for row in self.rows("figures.csv"):
            if row["figure"] == "mul":
                self.assertLess(abs(float(row["value"]) - 1000 * muls / RETIRED), float(row["half_interval"]))
                self.assertEqual(row["from"], "1000 * mul / retired")
        self.assertEqual([row["figure"] for row in self.rows("figures.csv")], 2 * ["cycles_per_instruction", "odd_words", "mul", "slots_1"])
        self.assertIn("No theorem ties an estimate to a run.", told.stdout)
        self.assertEqual(json.loads(open(os.path.join(self.out, "estimates.json"), encoding="utf-8").read())[0]["retired"], RETIRED)

    def test_cold_start(self):
        """Behind the 63 that set the registers and a warm-up of 30 seven of the 100 are cold; with four times the warm-up nothing is, and so it is
        in the estimate."""
        told = self.sample(*SHORT, "--warm", "30", "--no-touch", "--set", "units.mul_latency=1")
        self.assertEqual(told.returncode, 0)
        self.assertEqual({(row["longer"], int(row["last_cycle"]) - int(row["first_cycle"])) for row in self.rows()}, {("False", 107), ("True", 100)})
        self.assertIn("core units.mul_latency=1: 1.0000 cycles per instruction, +- 0.0000", told.stdout)
        self.assertIn("with 4 times the warm-up 10 of the windows take -7.0 %", told.stdout)

    def test_first_loads(self):
        """What a window's image touches may be loaded for the first time in the run: each line of the data takes a miss more."""
        self.assertEqual(self.sample(*SHORT, "--warm", "30").returncode, 0)
        machine = read_description(self.description)
        for row in self.rows():
            # the words from 0x20000 on of the rounds of 255 instructions that are over
            lines = -(-(4 * ((int(row["begin"]) - int(row["warm"]) - 3) // 256)) // machine.line)
            self.assertIn(int(row["first_loads"]) // machine.miss_latency - lines, (0, 1), row)

    def test_changes(self):
        """Where the run goes from a cycle an instruction to two, further windows find the place, and the estimate is the whole run's number but for
        a length of a window. Once they are there nothing more is measured, and without one of them it is measured again."""
        shutil.copy(support.image_of_words("two_phases", TWO_PHASES), self.image)
        words = (*SHORT, "--warm", "200", "--set", "units.mul_latency=4")
        told = self.sample(*words)
        self.assertEqual((told.returncode, told.stderr), (0, ""))
        further, costs = [row for row in self.rows() if row["change"] == "True"], self.costs(4)
        self.assertEqual({row["window"] for row in further}, {str(int(further[0]["window"]))})
        self.assertTrue(0 < len(further) <= 6)
        row, ran = self.rows("estimates.csv")[0], self.measured()
        self.assertLess(abs(float(row["cycles_per_instruction"]) * len(costs) - sum(costs)), 250)
        self.assertEqual((self.sample(*words).stdout, self.sample(image=False).stdout, self.measured()), (told.stdout, told.stdout, ran))
        with open(os.path.join(self.out, "windows.json"), encoding="utf-8") as file:
            last = json.load(file)["runs"][-1]
        os.remove(next(os.path.join(self.out, word) for word in last if isinstance(word, str) and word.startswith("results/")))
        self.assertEqual((self.sample("--gather", image=False).returncode, self.sample(image=False).stdout, self.measured()), (3, told.stdout, ran + 1))

    def test_goes_on(self):
        """The same command makes what is missing alone, and so does the folder; other words, or another image, are another question."""
        words = (*SHORT, "--warm", "60")
        first = self.sample(*words)
        self.assertEqual((first.returncode, self.measured()), (0, 20))
        for name in sorted(os.listdir(os.path.join(self.out, "results")))[:4]:
            os.remove(os.path.join(self.out, "results", name))
        told = self.sample("--gather", image=False)
        self.assertEqual((told.returncode, told.stderr.count("missing: two_loops core")), (3, 4))
        self.assertIn("\n4 of 20 windows are missing: what follows is of the others\n", told.stdout)
        again = self.sample(image=False)
        self.assertEqual((again.returncode, again.stdout, self.measured()), (0, first.stdout, 24))
        self.assertEqual((self.sample(*words).returncode, self.measured()), (0, 24))
        self.assertEqual((self.sample(*words, "--seed", "2").returncode, self.measured()), (0, 44))
        shutil.copy(support.image_of_words("other", (*WORDS[:1], 0x03b00293, *WORDS[2:])), self.image)
        told = self.sample(image=False)
        self.assertEqual(told.returncode, 2)
        self.assertIn("isn't what it was", told.stderr)
        self.assertEqual((self.sample(*words).returncode, self.measured()), (0, 64))

    def test_one_window_alone(self):
        """It has no interval, so nothing is estimated of it; that the others are missing is told."""
        self.assertEqual(self.sample(*SHORT, "--warm", "60").returncode, 0)
        runs = self.runs()
        kept = next(run["result"] for run in runs if not run["values"]["longer"])
        for run in runs:
            if run["result"] != kept:
                os.remove(os.path.join(self.out, run["result"]))
        told = self.sample("--gather", image=False)
        self.assertEqual(told.returncode, 3, told.stderr)
        self.assertIn("\n19 of 20 windows are missing: what follows is of the others\n", told.stdout)
        self.assertNotIn("cycles per instruction", told.stdout)
        self.assertEqual((len(self.rows()), self.rows("estimates.csv")), (1, []))

    def runs(self):
        """The runs that the folder's plan has."""
        with open(os.path.join(self.out, "windows.json"), encoding="utf-8") as file:
            made = json.load(file)
        return [dict(zip(made["columns"], run)) for run in made["runs"]]

    def test_other_words_for_the_folder(self):
        """The folder alone goes on with what was asked, and is refused with other words."""
        self.assertEqual(self.sample(*SHORT, "--warm", "60").returncode, 0)
        for words, said in ((("--windows", "12"), "windows 10, and not with 12"), (("--no-touch",), "touch True, and not with False"),
                            (("--steps", "9000"), "steps None, and not with 9000"), (("--set", "core.rob=32"), "set [], and not with ['core.rob=32']"),
                            (("--defences",), "defences False, and not with True")):
            with self.subTest(words):
                told = self.sample(*words, image=False)
                self.assertEqual((told.returncode, told.stdout, told.stderr.count("\n")), (2, "", 1))
                self.assertIn(f"was asked with {said}: give the whole command again", told.stderr)
        self.assertEqual(self.sample(*SHORT, "--warm", "60", "--touch", image=False).returncode, 0)

    def test_between_two_questions(self):
        """While images are made for another question the folder has none: alone it doesn't go on with the one before."""
        self.assertEqual(self.sample(*SHORT, "--warm", "60").returncode, 0)
        self.assertEqual(self.sample(*SHORT, "--warm", "60", "--seed", "2", KILL="1").returncode, 2)
        told = self.sample(image=False)
        self.assertEqual((told.returncode, told.stdout, told.stderr.count("\n")), (2, "", 1))
        self.assertIn("sample.json isn't there, so the images of", told.stderr)
        self.assertEqual(self.sample(*SHORT, "--warm", "60", "--seed", "2").returncode, 0)
        self.assertEqual(self.sample(image=False).returncode, 0)

    def test_a_further_window_is_of_the_same_files(self):
        """Where the image isn't the one that was planned, or the folder's simulator isn't its copy, no further window is made."""
        first = support.image_of_words("two_phases", TWO_PHASES)
        shutil.copy(first, self.image)
        self.assertEqual(self.sample(*SHORT, "--warm", "200", "--set", "units.mul_latency=4", "--list").returncode, 0)
        with open(os.path.join(self.out, "commands"), encoding="utf-8") as file:
            self.assertEqual({self.shell(line) for line in file.read().splitlines()}, {0})
        made, question = planned.read(self.out)
        with open(self.image, "ab") as file:
            file.write(b"#")
        with self.assertRaisesRegex(Fault, "two_loops.elf isn't what it was when .* was planned: give the whole command again$"):
            refining.refined(made, question)
        shutil.copy(first, self.image)
        copy = os.path.join(self.out, refining.simulator(made))
        with open(copy, "ab") as file:
            file.write(b"#\n")
        with self.assertRaisesRegex(Fault, "isn't what was asked of"):
            refining.refined(made, question)
        shutil.copy(self.program, copy)
        self.assertGreater(len(refining.refined(made, question).runs), len(made.runs))

    def test_lists(self):
        """The lines of `commands`, run by a shell where the folder is, come to what is measured here; what is killed leaves no result."""
        words = (*SHORT, "--warm", "60")
        here = self.sample(*words).stdout
        shutil.rmtree(self.out)
        told = self.sample(*words, "--list", "--pack")
        self.assertEqual((told.returncode, told.stdout.split()[0], self.measured()), (0, "20", 20))
        self.assertTrue(os.path.exists(self.out + ".tar.gz"))
        with open(os.path.join(self.out, "commands"), encoding="utf-8") as file:
            lines = file.read().splitlines()
        self.assertNotEqual(self.shell(lines[0], KILL="1") and self.shell(lines[1], KILL="1"), 0)
        self.assertEqual({self.shell(line) for line in lines}, {0})
        self.assertEqual(self.sample("--gather", image=False).stdout, here)

    def test_a_line_twice(self):
        """A line whose result is there measures nothing, and the result stands once: as a file, or as a line of a task's file."""
        self.assertEqual(self.sample(*SHORT, "--warm", "60", "--list").returncode, 0)
        with open(os.path.join(self.out, "commands"), encoding="utf-8") as file:
            lines = file.read().splitlines()[:4]
        for line, more in zip(lines, ({}, {"RESULTS": "results/task_1"}, {"RESULTS": "results/task_1"}, {})):
            ran = self.measured()
            self.assertEqual((self.shell(line, **more), self.shell(line, **more), self.measured()), (0, 0, ran + 1))
        told = sorted(os.listdir(os.path.join(self.out, "results")))
        self.assertEqual((len(told), told[0]), (3, "task_1"))
        with open(os.path.join(self.out, "results", "task_1"), encoding="utf-8") as file:
            self.assertEqual([line.rpartition(" of ")[2] for line in file.read().splitlines()], [line.split()[1] for line in lines[1:3]])

    def shell(self, line, **more):
        return subprocess.run(["sh", "-c", line], cwd=self.folder, env=os.environ | more, stderr=subprocess.DEVNULL, check=False).returncode

    def test_interrupted(self):
        child = subprocess.Popen([support.TOOL, "sample", self.image, self.description, "-o", self.out, *self.programs, *SHORT],
                                 stdout=subprocess.PIPE, stderr=subprocess.PIPE, text=True, start_new_session=True)
        for _ in range(600):
            if self.measured() > 2:
                break
            time.sleep(0.1)
        os.killpg(child.pid, signal.SIGINT)
        said, note = child.communicate(timeout=60)
        self.assertEqual((child.returncode, said), (130, ""))
        self.assertIn("the same command goes on where it stopped", note)

    def test_refusals(self):
        for words, said in ((("--windows", "5"), "--windows is at least 10"), (("--windows", "20", "--length", "9999"), "takes the whole of it"),
                            (("--set", "core.rob=13"), "description K5 core.rob 13"), (("--pack",), "--pack is asked for with --list"),
                            (("--at", "0x10002"), "code stands at multiples of 4"), (("--steps", "0"), "at least 1"),
                            (("--program", "/nowhere"), "no program stt_cli")):
            with self.subTest(words):
                told = self.sample(*SHORT, *words)
                self.assertEqual((told.returncode, told.stdout, told.stderr.count("\n")), (2, "", 1))
                self.assertIn(said, told.stderr)
        told = self.sample(image=False)
        self.assertEqual((told.returncode, told.stderr.count("\n")), (2, 1))
        told = self.sample(self.description, self.image, image=False)
        self.assertEqual((told.returncode, told.stdout, told.stderr.count("\n")), (2, "", 1))
        self.assertIn("the image comes first, and the descriptions behind it", told.stderr)

    def test_first_steps_alone(self):
        """--steps takes the first instructions for the run, which is told."""
        told = self.sample(*SHORT, "--warm", "60", "--steps", "8000")
        self.assertEqual(told.returncode, 0)
        self.assertIn("two_loops: 8000 instructions, cut there by --steps", told.stdout)
        self.assertLess(max(int(row["begin"]) for row in self.rows()), 8000)

    def test_a_run_that_doesnt_end(self):
        """It is refused, and taken only where the words say how much of it."""
        shutil.copy(support.image_of_words("endless", (0x00000013, 0xffdff06f)), self.image)
        told = self.sample(*SHORT, "--warm", "60")
        self.assertEqual((told.returncode, told.stdout, told.stderr.count("\n")), (2, "", 1))
        self.assertIn("two_loops.elf: the run doesn't end within 4294967295 instructions; --steps N takes the first N", told.stderr)
        self.assertEqual((self.measured(), self.sample(image=False).returncode), (0, 2))
        told = self.sample(*SHORT, "--warm", "60", "--steps", "4294967295")
        self.assertEqual((told.returncode, told.stderr), (0, ""))
        self.assertIn("two_loops: 4294967295 instructions, cut there by --steps", told.stdout)


@unittest.skipUnless(support.PROGRAM and built_programs.counting(), "the programs aren't built (stt_cli and stt_stats)")
class Program(Folder):
    def test_with_the_run_before_each(self):
        """Where the warm-up reaches to the run's begin each window is one of the whole run's trace, and they're no estimate but counted."""
        image, core = support.file_of("long.elf", generated_image(5, 12)), support.example("core.toml")
        told = subprocess.run([support.TOOL, "sample", image, core, "-o", self.out, "--windows", "10", "--length", "5", "--warm", "100000"],
                              capture_output=True, text=True)
        self.assertEqual((told.returncode, told.stderr), (0, ""))
        trace, retired, cycle_of = support.trace_of(core, image, 1000000), 0, [0]
        for line in filter(lambda line: line[0].isdigit(), trace):
            retired += line.count(" ret:")
            cycle_of += [int(line.split()[0])] * (retired + 1 - len(cycle_of))
        for row in self.rows():
            begin = int(row["begin"])
            self.assertEqual(row["warm"], row["begin"])
            self.assertEqual([int(row["first_cycle"]), int(row["last_cycle"])], [cycle_of[begin], cycle_of[begin + 5]])
        self.assertIn("cold start: not asked", told.stdout)

    def test_estimate_beside_the_run(self):
        """Of the two loops the windows tell the whole run to a twentieth."""
        told = subprocess.run([support.TOOL, "sample", self.image, self.description, "-o", self.out, "--windows", "20", "--length", "300",
                               "--warm", "1500"], capture_output=True, text=True)
        self.assertEqual((told.returncode, told.stderr), (0, ""))
        run = support.run_program("run", self.description, self.image, "--cycles", "1000000").stdout.splitlines()[-1].split()
        self.assertEqual(int(run[4]), RETIRED)
        whole, row = int(run[6]) / RETIRED, self.rows("estimates.csv")[0]
        self.assertLess(abs(float(row["cycles_per_instruction"]) / whole - 1), 0.05)


if __name__ == "__main__":
    unittest.main()
