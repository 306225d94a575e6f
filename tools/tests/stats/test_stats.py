"""The program `stt_stats` beside a count of the lines that `trace` writes of the same runs, and the stored run that the gate compares with."""
import os
import re
import subprocess
import unittest
from collections import Counter

import event_counts
import slot_counts
import support
from evaluate import model
from generate.generated import generated_image
from programs import KEPT, PROGRAMS
from wadrelwy import built_programs
from wadrelwy.riscv.kinds import DIVISION, LOAD, STORE
from wadrelwy.verdict.loaded import load
from wadrelwy.view import slots
from wadrelwy.view.description import read_description
from wadrelwy.view.replay import Replay
from wadrelwy.view.trace import Trace

CRATE = os.path.join(support.ROOT, "crates", "stt_stats")
STATS = built_programs.program("stt_stats", os.environ.get("STT_STATS") or os.path.join(CRATE, "out", "stt_stats"))
NO_STATS = support.NO_PROGRAM or (None if STATS else "the program isn't built (crates/stt_stats/out/stt_stats, or STT_STATS)")
DESCRIPTIONS = ("core", "core_futuristic", "core_unprotected", "core_hold", "core_delay", "core_passing", "core_any_address", "core_history",
                "core_two_levels", "medium", "desktop", "large_passing", "large_two_levels", "large_futuristic_hold")
CYCLES = 2000


def read(*path):
    with open(os.path.join(support.ROOT, *path), encoding="utf-8") as file:
        return file.read()


def descriptions():
    """The examples' descriptions, and the first of them with room for one load and one store, so that what comes next often has none."""
    yield from (support.example(f"{name}.toml") for name in DESCRIPTIONS)
    narrow = read("examples", "core.toml").replace("loads = 4 ", "loads = 1 ").replace("stores = 4 ", "stores = 1 ")
    yield support.file_of("narrow.toml", narrow.encode())


def images():
    """The examples' images, a program for each rule of the machine and for each of what the defence keeps, and generated ones."""
    yield from (support.example(f"{name}.elf") for name in (*support.EXAMPLES, "bounds_check_other"))
    yield from (support.image_of_words(name.replace(" ", "_"), words) for name, words in (PROGRAMS | KEPT).items())
    yield from (support.file_of(f"generated{seed}.elf", generated_image(seed, 40)) for seed in range(2))


class Counts(unittest.TestCase):
    def test_names(self):
        """The names and their order are those of the page."""
        section = read("docs", "formats.md").split("\n## The program stt_stats\n")[1].split("\n## ")[0]
        rows = re.findall(r"^\| (`[^|]*) \|", section, re.MULTILINE)
        self.assertEqual([name for row in rows for name in re.findall(r"`(\w+)`", row)], [*event_counts.NAMES, *slot_counts.NAMES])

    def test_stored_run(self):
        """What the gate compares with is what the worked trace of docs/traces.md comes to."""
        words = read("crates", "stt_stats", "args").split()
        self.assertEqual(words, ["core.toml", "bounds_check.elf", "--cycles", "100", "--every", "8"])
        told = slot_counts.text("".join(support.worked_trace("Bounds check bypass")), support.example("bounds_check.elf"), support.example("core.toml"), 8)
        self.assertEqual(told, read("crates", "stt_stats", "stdout"))

    def test_neighbours(self):
        """A squash is counted by what it stands right behind, in its own line alone."""
        for rows, name in ((["1 res:4:T bp:2:3 sq:5"], "mispredicted_branches"), (["1 res:4:J bt:1:00010000 sq:0"], "mispredicted_jumps"),
                           (["1 res:4:J sq:3"], "mispredicted_jumps"), (["1 vio:7 dp:3:1 sq:2"], "load_squashes"),
                           (["1 res:4:T bp:2:3", "2 sq:5"], None), (["1 sq:5 bp:2:3"], None)):
            numbers = dict(zip(event_counts.NAMES, event_counts.counted(rows)))
            squashes = [name for name in ("mispredicted_branches", "mispredicted_jumps", "load_squashes") if numbers[name]]
            self.assertEqual(squashes, [name] if name else [], rows)

    def test_what_is_no_event(self):
        for row in ("1 ret", "1 ret:x", "1 ld:4:00010000", "1  ret:4", "1 res:4:X", "1 dp:1:0"):
            with self.subTest(row), self.assertRaises(StopIteration):
                event_counts.counted([row])


# what the viewer tells apart and the numbers don't, or the other way round: the viewer knows which item stood in the queue, and by what a load
# was served; the numbers know for what a Done entry waits
LOADS = {slots.HIT, slots.FORWARDED, slots.SECOND_LEVEL, slots.MEMORY, slots.JOINED, slots.FAULTING}
WAITS = {slots.PORTS, slots.CLEARING, *slots.SETTLING.values()}
THEIRS = {slots.BASE: "base", slots.MISPREDICTION: "misprediction", slots.VIOLATION: "violation", slots.SIMPLE: "simple", slots.END: "end",
          slots.MULTIPLIER: "multiplier", slots.DIVIDER_BUSY: "divider", slots.STORES: "store", slots.REGISTERS: "registers",
          slots.ROOM: "room", **dict.fromkeys((slots.FRONT_END, slots.SYSTEM_CALL), "front end or call"), **dict.fromkeys(LOADS, "load"),
          **dict.fromkeys(WAITS, "done"), **dict.fromkeys(slots.KEPT.values(), "defence")}
OURS = {"front_end": "front end or call", "call": "front end or call", "load_first": "load", "load_second": "load", "load_memory": "load",
        "resolve": "done", "clear": "done", "store_port": "done"}


def kept_by(machine):
    """The serial of the oldest entry that waits with all that it reads and isn't visible, in the state of a machine of tools/evaluate, if the
    defence keeps it; else none."""
    tainted = machine.hidden_roots()
    for entry in machine.window:
        gone_or_done = [writer is None or writer not in machine.window or writer.state == model.DONE for writer in entry.writers]
        shows = entry.kind not in (LOAD, DIVISION, STORE) or machine.may_show(entry)
        shows = shows and not (entry.kind == LOAD and tainted[entry.serial][0] or entry.kind == DIVISION and any(tainted[entry.serial]))
        if entry.state == model.WAITING and all(gone_or_done) and not machine.is_visible(entry):
            return None if shows and machine.known(entry, range(len(entry.writers))) else entry.serial
    return None


@unittest.skipIf(support.NO_IMAGES, support.NO_IMAGES)
class BesideTheModel(unittest.TestCase):
    """What the defence keeps, as the count finds it in a trace's pipeline, beside the state of the machine that wrote the trace."""

    def both(self, described, image):
        """After each cycle the serial of what the defence keeps, by the count and by the machine."""
        description = read_description(described)
        with open(described, encoding="utf-8") as file:
            numbers = model.read_numbers(file.read())
        machine, lines, theirs = model.Machine(numbers, load(image, description)), [], []
        while machine.end is None and machine.now < 400:
            lines.append(" ".join([str(machine.now + 1), *machine.cycle()]) + "\n")
            theirs.append(kept_by(machine))
        lines.append(f"end {machine.end or 'budget'} retired {machine.retired} cycles {machine.now}\n")
        run, ours = slot_counts.replayed(Trace(iter(lines)), load(image, description), description), []
        for row in run.trace:
            run.step(row)
            kept = slot_counts.oldest_kept(run.pipeline)
            ours.append(None if kept is None else kept.serial)
        return ours, theirs

    def test_what_is_kept(self):
        for keys in support.defended(depend=2):
            for described in support.descriptions(2, ("spectre", "futuristic", "off"), **keys):
                cycles = 0
                for name, words in (PROGRAMS | KEPT).items():
                    with self.subTest(name=name, description=described):
                        ours, theirs = self.both(described, support.image_of_words(name.replace(" ", "_"), words))
                        self.assertEqual(ours, theirs)
                        cycles += len(theirs) - theirs.count(None)
                if "off" in described or "example" in described:
                    self.assertEqual(cycles > 0, "off" not in described, described)


@unittest.skipIf(support.NO_IMAGES, support.NO_IMAGES)
class BesideTheStack(unittest.TestCase):
    """The slots by reason beside those of `view stack`, over the programs under each kind of description."""

    def stacks(self, described, image):
        """Both stacks of a run, by the names that both know; and the viewer's own."""
        description, lines = read_description(described), support.modelled(described, image, 400)
        run = Replay(Trace(iter(lines)), support.Image(image), description)
        for _ in run.items():
            pass
        ours, theirs, own = Counter(), Counter(), Counter()
        for retired, empty, reason in slot_counts.cycles(Trace(iter(lines)), load(image, description), description):
            ours += Counter({"base": retired}) + Counter({OURS.get(reason, reason): empty})
            own[reason] += empty
        for reason, number in run.slots.sums().items():
            theirs[THEIRS[reason]] += number
        self.assertEqual(sum(ours.values()), run.pipeline.cycle * description.retire_width)
        return ours, theirs, own, run.slots.sums()

    def test_each_slot(self):
        """Both charge the same slots to the same, also those that the defence made late. A load that doesn't join a miss, and lies in one line, is
        served by what both say."""
        described = [*support.descriptions(1), support.description("second", "spectre", 2, second_sets=4, second_latency=5),
                     *support.descriptions(2, ("off",), depend=2),
                     *(name for keys in support.defended(depend=2) for name in support.descriptions(2, ("spectre", "futuristic"), **keys))]
        for description in described:
            for name, words in (PROGRAMS | KEPT).items():
                with self.subTest(name=name, description=description):
                    ours, theirs, own, told = self.stacks(description, support.image_of_words(name.replace(" ", "_"), words))
                    self.assertEqual(ours, theirs)
                    served = [told.get(slots.HIT, 0) + told.get(slots.FORWARDED, 0) + told.get(slots.FAULTING, 0),
                              told.get(slots.SECOND_LEVEL, 0), told.get(slots.MEMORY, 0)]
                    if not told.get(slots.JOINED):
                        self.assertEqual([own["load_first"], own["load_second"], own["load_memory"]], served)


@unittest.skipIf(NO_STATS, NO_STATS)
class Program(unittest.TestCase):
    def told(self, description, image, *words):
        ended = subprocess.run([STATS, description, image, "--cycles", str(CYCLES), *words], capture_output=True, text=True, timeout=60, check=False)
        self.assertEqual(ended.stderr, "")
        return ended.returncode, ended.stdout

    def test_beside_the_trace(self):
        """Of each run the text and the status are those of the trace, also with lines on the way; and each number counts something somewhere."""
        names = [*event_counts.NAMES, *slot_counts.NAMES]
        seen = [0] * len(names)
        for description in descriptions():
            for number, image in enumerate(images()):
                trace = support.run_program("trace", description, image, "--cycles", str(CYCLES))
                every = (1, 2, 7, 100, CYCLES, 4294967295)[number % 6]
                text = slot_counts.text(trace.stdout, image, description)
                with self.subTest(description=description, image=image, every=every):
                    self.assertEqual(self.told(description, image), (trace.returncode, text))
                    self.assertEqual(self.told(description, image, "--every", str(every)), (trace.returncode, slot_counts.text(trace.stdout, image, description, every)))
                seen = [total + int(line.split()[1]) for total, line in zip(seen, text.splitlines())]
        self.assertEqual([name for name, number in zip(names, seen) if not number], [])


if __name__ == "__main__":
    unittest.main()
