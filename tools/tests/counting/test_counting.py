"""`wadrelwy stats`: what it makes of the program's text, what it refuses, and its counts beside those of the trace. The program is a stand-in
whose answers stand here, but for the last tests."""
import json
import os
import re
import subprocess
import sys
import tempfile
import unittest
import xml.etree.ElementTree as ElementTree

import support
from wadrelwy import Fault, built_programs, statuses
from wadrelwy.counting import numbers, over_time
from wadrelwy.sweep.kept import sha256, content

CORE, BOUNDS = support.example("core.toml"), support.example("bounds_check.elf")
STATS = built_programs.program(built_programs.STATS)
EXAMPLES = ("bounds_check", "tainted_store", "store_bypass", "target_injection", "fault_shadow")


def with_slots(counts, cycles):
    """Counts with the slots of so many cycles, two in each, those in which nothing retired by the front end."""
    retired = counts.get("retired", 0)
    return {"slots_base": retired, "slots_front_end": 2 * cycles - retired} | counts


def text(end="exit 0", retired=4, cycles=9, rows=(), **counts):
    """A text as the program writes it: rows are dictionaries with their last cycle."""
    told = {name: 0 for name in numbers.NAMES} | with_slots({"retired": retired} | counts, cycles)
    every = rows[0]["cycle"] if rows else 0
    rows = [with_slots(row, every) for row in rows]
    lines = [" ".join(map(str, [row["cycle"], *(row.get(name, 0) for name in numbers.NAMES)])) for row in rows]
    return "".join(f"{line}\n" for line in [*lines, *(f"{name} {told[name]}" for name in numbers.NAMES), f"end {end} retired {retired} cycles {cycles}"])


def read(written, every=None):
    return numbers.read(written.splitlines(keepends=True), every)


class Numbers(unittest.TestCase):
    def test_the_names_are_those_of_the_page_and_of_the_definition(self):
        with open(os.path.join(support.ROOT, "docs", "formats.md"), encoding="utf-8") as file:
            section = file.read().split("\n## The program stt_stats\n")[1].split("\n## ")[0]
        named = [name for row in re.findall(r"(?m)^\| (`[^|]+) \|", section) for name in re.findall("`([^`]+)`", row)]
        self.assertEqual(tuple(named), numbers.NAMES)
        for crate, of, name, told in (("run_counts", "Counted", "names", numbers.COUNTS), ("slot_reasons", "Slots", "slot_names", numbers.SLOTS)):
            with open(os.path.join(support.ROOT, "crates", crate, "specs", f"{of}.antt"), encoding="utf-8") as file:
                defined = file.read().split(f"\n{name} =\n")[1].split("[]")[0]
            self.assertEqual(tuple(re.findall('codes "([^"]+)"', defined)), told)

    def test_gem5s_names_are_those_of_the_page(self):
        with open(os.path.join(support.ROOT, "docs", "view.md"), encoding="utf-8") as file:
            section = file.read().split("\n## Numbers without a trace\n")[1].split("\n## ")[0]
        named = dict(re.findall(r"(?m)^\| `([^`|]+)` \| `([^`|]+)` \|", section))
        self.assertEqual(named, {name: figure.told for name, figure in numbers.GEM5.items()})

    def test_figures(self):
        told = read(text(load_second=1, load_misses=2, load_joins=4, mispredicted_branches=3, mispredicted_jumps=1))
        self.assertEqual(numbers.reckoned(told.counts), {numbers.CPI: 2.25, numbers.MISSES: 750.0, numbers.MEMORY: 500.0, numbers.MISPREDICTIONS: 1000.0})
        self.assertEqual(numbers.GEM5["system.cpu.dcache.ReadReq.misses::total"].of(told.counts), 7)
        self.assertEqual(numbers.RECKONED[numbers.MISSES].told, "1000 * (load_second + load_misses) / retired")

    def test_shares_of_the_slots(self):
        told = read(text(slots_front_end=9, slots_load_memory=5))
        self.assertEqual({name: share for name, share in numbers.shares(told.counts).items() if share},
                         {"slots_base": 4 / 18, "slots_front_end": 9 / 18, "slots_load_memory": 5 / 18})
        self.assertEqual(set(numbers.shares(read(text("budget", 0, 0)).counts).values()), {None})

    def test_a_figure_that_isnt_known(self):
        """Nothing retired; or a number that stands for greater ones."""
        self.assertEqual(set(numbers.reckoned(read(text("budget", 0)).counts).values()), {None})
        told = read(text(load_misses=numbers.MOST))
        self.assertIsNone(numbers.RECKONED[numbers.MISSES].of(told.counts))
        self.assertEqual(numbers.RECKONED[numbers.CPI].of(told.counts), 2.25)

    def test_rows(self):
        told = read(text(rows=[{"cycle": 4, "retired": 1}, {"cycle": 8, "retired": 2}]), 4)
        self.assertEqual([(row.cycle, row.counts["retired"], row.counts[numbers.CYCLES]) for row in told.rows], [(4, 1, 4), (8, 2, 4)])

    def test_what_isnt_the_programs(self):
        good = text()
        for wrong, every in ((good.replace("mul 0", "mull 0"), None), (good.replace("alu 0\n", ""), None), (good + good, None), ("x\n" + good, None),
                             (good.replace("retired 4\n", "retired 5\n", 1), None), (text(rows=[{"cycle": 4}]), 4),
                             (text(rows=[{"cycle": 4}, {"cycle": 9}]), 4), (text(rows=[{"cycle": 4, "alu": 1}, {"cycle": 8}]), 4),
                             (text(rows=[{"cycle": 4}, {"cycle": 8}]), None), ("retired 4 5\n", None), (good.replace("slots_end 0", "slots_end 1"), None),
                             (text(slots_base=3, slots_front_end=15), None), (text(rows=[{"cycle": 4, "slots_end": 1}, {"cycle": 8}]), 4)):
            with self.subTest(wrong[:40]), self.assertRaisesRegex(Fault, "doesn't answer as stt_stats does"):
                read(wrong, every)

    def test_a_text_that_stops_short(self):
        self.assertIsNone(read(text().rsplit("end", 1)[0]))
        self.assertIsNone(read(""))

    def test_rows_are_merged_for_a_picture(self):
        counts = {name: 1 for name in (numbers.CYCLES, *numbers.NAMES)}
        found = over_time.merged([numbers.Row(cycle, counts) for cycle in range(1, 2 * over_time.MOST_POINTS + 2)])
        self.assertLessEqual(len(found), over_time.MOST_POINTS)
        self.assertEqual((found[0].cycle, found[0].counts["alu"], found[-1].cycle), (3, 3, 2 * over_time.MOST_POINTS + 1))


class Command(unittest.TestCase):
    def setUp(self):
        folder = tempfile.TemporaryDirectory()
        self.addCleanup(folder.cleanup)
        self.folder = folder.name

    def program(self, script):
        path = os.path.join(self.folder, "stt_stats")
        with open(path, "w", encoding="ascii") as file:
            file.write(f"#!/bin/sh\n{script}\n")
        os.chmod(path, 0o755)
        return path

    def answering(self, written, status, note=""):
        with open(os.path.join(self.folder, "written"), "w", encoding="ascii") as file:
            file.write(written)
        return self.program(f"cat {self.folder}/written\n{f'echo {note!r} >&2' if note else ''}\nexit {status}")

    def ask(self, *words, program=None, image=BOUNDS):
        named = ["--program", program] if program else []
        told = subprocess.run([sys.executable, support.TOOL, "stats", CORE, image, *words, *named], capture_output=True, text=True, timeout=60)
        return told.stdout, told.stderr, told.returncode

    def test_the_words_that_are_asked(self):
        program = self.program(f'echo "$@" > {self.folder}/asked; exit 2')
        for words, asked in (([], "--cycles 4294967295"), (["--cycles", "7", "--every", "2"], "--cycles 7 --every 2")):
            self.ask(*words, program=program)
            self.assertEqual(content(os.path.join(self.folder, "asked")).decode(), f"{CORE} {BOUNDS} {asked}\n")

    def test_lines(self):
        program = self.answering(text(rows=[{"cycle": 4, "retired": 2}, {"cycle": 8}]), 0)
        written, note, status = self.ask("--every", "4", program=program)
        self.assertEqual((note, status), ("", 0))
        for path in (CORE, BOUNDS):
            self.assertIn(f"{path} sha256 {sha256(content(path))}", written)
        self.assertRegex(written, rf"(?m)^by +stt_stats sha256 {sha256(content(program))}, kit ")
        self.assertRegex(written, r"(?m)^ +4 +2 +2\.000 ")
        self.assertRegex(written, r"(?m)^cycles per instruction +2\.250   cycles / retired$")
        self.assertRegex(written, r"(?m)^slots_front_end +14   77\.8 % of all slots$")
        self.assertTrue(written.endswith("\nend exit 0 retired 4 cycles 9\n"))
        path = os.path.join(self.folder, "kept")
        self.assertEqual(self.ask("--every", "4", "-o", path, program=program), ("", "", 0))
        self.assertEqual(content(path).decode(), written)

    def test_json(self):
        program = self.answering(text(rows=[{"cycle": 4, "retired": 2}, {"cycle": 8}], fills=3), 0)
        found = json.loads(self.ask("--every", "4", "--json", program=program)[0])
        self.assertEqual(found["image"], {"path": BOUNDS, "sha256": sha256(content(BOUNDS))})
        self.assertEqual((found["end"], found["cycles"], found["counts"]["fills"], found["every"]), ("exit 0", 9, 3, 4))
        self.assertEqual(found["reckoned"][numbers.CPI], {"value": 2.25, "from": "cycles / retired"})
        self.assertEqual([(row["cycle"], row["reckoned"][numbers.CPI]) for row in found["rows"]], [(4, 2.0), (8, None)])
        self.assertNotIn("rows", json.loads(self.ask("--json", program=self.answering(text(), 0))[0]))

    def test_a_picture(self):
        program = self.answering(text(rows=[{"cycle": 4, "retired": 2}, {"cycle": 8}]), 0)
        written, _, status = self.ask("--every", "4", "--svg", program=program)
        self.assertEqual(status, 0)
        told = [part.text for part in ElementTree.fromstring(written).iter() if part.text]
        self.assertIn(f"image {sha256(content(BOUNDS))}", told)
        self.assertIn("cycle 4: 2.000", told)
        self.assertFalse([part for part in told if part.startswith("cycle 8:")])
        self.assertIn("cycles 1 to 4, base: 25.0 %", told)
        self.assertIn("cycles 5 to 8, front end: 100.0 %", told)

    def test_ends_are_told(self):
        _, note, status = self.ask(program=self.answering(text("budget"), 3))
        self.assertEqual((note.count("\n"), status), (1, statuses.CUT))
        self.assertIn("the budget ended it", note)
        _, note, status = self.ask(program=self.answering(text("trap 5 00010004"), 1))
        self.assertEqual((note.count("\n"), status), (1, statuses.SHOWS))
        self.assertIn("wadrelwy stats: trap 5, a load outside memory", note)

    def test_refusals(self):
        written, note, status = self.ask(program=self.answering("", 5, "image E2"))
        self.assertEqual((written, status, note.count("\n")), ("", 5, 1))
        self.assertIn(f"{BOUNDS}: image E2: no ELF image", note)
        self.assertEqual(self.ask(image="/nowhere/at/all", program=self.answering("", 6, "read image")),
                         ("", "wadrelwy stats: /nowhere/at/all: No such file or directory\n", 6))

    def test_a_status_that_isnt_the_ends(self):
        for written, status in ((text(), 3), (text("budget"), 0), ("", 0), (text(), 9)):
            written, note, status = self.ask("--json", program=self.answering(written, status))
            self.assertEqual((written, note.count("\n"), status), ("", 1, statuses.REFUSED))

    def test_a_program_that_is_killed(self):
        """A torn line is none; nothing is kept."""
        path = os.path.join(self.folder, "kept")
        _, note, status = self.ask("-o", path, program=self.program("printf 'retired 4\\nfetch'; kill -9 $$"))
        self.assertEqual((status, os.path.exists(path)), (137, False))
        self.assertIn("killed by SIGKILL", note)

    def test_files_that_change_on_the_way(self):
        image = os.path.join(self.folder, "image.elf")
        with open(image, "wb") as file:
            file.write(content(BOUNDS))
        with open(os.path.join(self.folder, "written"), "w", encoding="ascii") as file:
            file.write(text())
        program = self.program(f"echo >> {image}; cat {self.folder}/written")
        written, note, status = self.ask("--json", program=program, image=image)
        self.assertEqual((written, note, status), ("", f"wadrelwy stats: {image} was written while the run was counted\n", 2))

    def test_what_can_be_read_but_once(self):
        _, note, status = self.ask(program=self.answering(text(), 0), image="/dev/null")
        self.assertEqual((note, status), ("wadrelwy stats: /dev/null: no file, and so it couldn't be said what was counted\n", 2))

    def test_an_unproved_one_says_so(self):
        os.rename(self.answering(text(), 0, "unproved: stt_stats was compiled by rt try"), os.path.join(self.folder, "stt_stats-unproved"))
        written, note, status = self.ask(program=os.path.join(self.folder, "stt_stats-unproved"))
        self.assertEqual((note, status), ("unproved: stt_stats was compiled by rt try\n", 0))
        self.assertRegex(written, r"(?m)^by +stt_stats-unproved sha256 ")


@unittest.skipUnless(STATS and not support.NO_PROGRAM, "the programs aren't built (crates/stt_stats/out/stt_stats, or STT_STATS; and stt_cli)")
class Beside(unittest.TestCase):
    """The program itself beside the trace."""

    def counted(self, description, image, *words):
        told = subprocess.run([sys.executable, support.TOOL, "stats", description, image, "--json", *words], capture_output=True, text=True, timeout=120)
        return json.loads(told.stdout), told.returncode

    def test_the_traces_own_counts(self):
        for name in EXAMPLES:
            for core in ("core.toml", "core_passing.toml", "core_two_levels.toml"):
                image, description = support.example(f"{name}.elf"), support.example(core)
                ran = subprocess.run([support.PROGRAM, "trace", description, image, "--cycles", "10000"], capture_output=True, text=True, timeout=60)
                found, status = self.counted(description, image, "--every", "5", "--cycles", "10000")
                events = [event for line in ran.stdout.splitlines()[:-1] for event in line.split(" ")[1:]]
                self.assertEqual((f"end {found['end']}", status), (ran.stdout.splitlines()[-1].split(" retired")[0], ran.returncode))
                for counted, pattern in (("retired", "ret:.*"), ("fetched", "fet:.*"), ("load_misses", "ld:.*:m"), ("load_second", "ld:.*:2"),
                                         ("violations", "vio:.*"), ("load_hits", "ld:.*:h"), ("store_misses", "st:.*:m")):
                    self.assertEqual(found["counts"][counted], sum(bool(re.fullmatch(pattern, event)) for event in events), (name, core, counted))
                self.assertEqual(len(found["rows"]), found["cycles"] // 5)

    @unittest.skipIf(support.NO_IMAGES, support.NO_IMAGES)
    def test_the_figures_of_view_stats(self):
        for name in EXAMPLES:
            image, description = support.example(f"{name}.elf"), support.example("core_passing.toml")
            ran = subprocess.run([support.PROGRAM, "trace", description, image, "--cycles", "10000"], capture_output=True, timeout=60)
            trace = support.file_of(f"{name}.trace", ran.stdout)
            told = subprocess.run([sys.executable, support.TOOL, "view", "stats", trace, "-e", image, "-D", description, "--json"],
                                  capture_output=True, text=True, timeout=60)
            theirs, ours = json.loads(told.stdout)["per_thousand_retired"], self.counted(description, image)[0]["reckoned"]
            self.assertEqual(theirs, {"mispredicted": ours[numbers.MISPREDICTIONS]["value"], "loads_that_miss": ours[numbers.MISSES]["value"]}, name)


if __name__ == "__main__":
    unittest.main()
