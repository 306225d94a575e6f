"""Nothing is unexplained over what the program and other models write, and every event that is changed is noticed.

The reasons are found from the trace's text, the image and the description alone, so this is a second opinion on the program.
"""
import gc
import os
import unittest

import support
from generate.generated import generated_image
from programs import PROGRAMS
from wadrelwy.view import Fault
from wadrelwy.view.items import Item
from wadrelwy.view.rows import EVENTS

GENERATED, BLOCKS, CYCLES = 20, 24, 3000
RUNS = os.path.join(support.ROOT, "tools", "evaluate", "runs")
IN_VERSION_2 = {"operand", "taint", "port", "miss register", "divider", "taint, to be resolved", "one resolved a cycle", "base", "data",
                "address port", "data port", "older store's address", "older store's data", "older store's tainted address"}
# stored runs in which each event matters
STORED = ["registers_for_both_lines", "prefetch_from_second", "prefetch_behind_both_lines"]
WORKED = [("Bounds check bypass", "bounds_check.elf", "core.toml"), ("Fault shadow", "fault_shadow.elf", "core.toml"),
          ("Store whose data comes late", None, "core_version_2.toml")]


def unexplained(lines, image, description):
    return support.replay(lines, image, description)[0].reasons.unexplained


@unittest.skipIf(support.NO_PROGRAM, support.NO_PROGRAM)
class OverThePrograms(unittest.TestCase):
    def explained(self, image):
        """The longest trace of this image under six descriptions, of which nothing is unexplained."""
        longest = 0
        for description in support.descriptions():
            lines = support.trace_of(description, image, CYCLES)
            with self.subTest(image=os.path.basename(image), description=os.path.basename(description)):
                self.assertEqual(unexplained(lines, image, description), [])
            longest = max(longest, len(lines))
        return longest

    def test_examples(self):
        for name in support.EXAMPLES:
            self.assertGreater(self.explained(support.example(name + ".elf")), 20)

    def test_small_programs(self):
        for name, words in PROGRAMS.items():
            self.assertGreater(self.explained(support.image_of_words(name, words)), 4, name)

    def test_the_small_programs_meet_each_reason(self):
        waits, stalls, fetch = set(), set(), set()
        for name, words in PROGRAMS.items():
            image = support.image_of_words(name, words)
            for description in support.descriptions():
                run, _, items = support.replay(support.trace_of(description, image, CYCLES), image, description)
                waits |= {wait.reason for item in items for wait in item.waits}
                stalls |= set(run.front.rename)
                fetch |= set(run.front.fetch)
        self.assertEqual(waits, {"operand", "taint", "older store", "port", "miss register", "divider", "taint, to be resolved",
                                 "one resolved a cycle"})
        self.assertEqual(stalls, {"reorder buffer", "stations", "loads", "stores", "call in flight", "call waits to be alone",
                                  "queue empty"})
        self.assertEqual(fetch, {"queue full", "nothing to fetch"})

    def test_generated_images(self):
        for seed in range(GENERATED):
            image = support.file_of(f"generated_{seed}.elf", generated_image(seed, BLOCKS))
            self.assertGreater(self.explained(image), 100)


    def test_instructions_that_are_gone_take_no_memory(self):
        """Of the thousands of a run no more are held than can be in flight at once."""
        image, description = support.file_of("long.elf", generated_image(1, 200)), support.example("core.toml")
        run, _ = support.fresh(support.trace_of(description, image, 100000), image, description)
        before, most, number = live_items(), 0, 0
        for number, _ in enumerate(run.items(), 1):
            most = max(most, live_items() - before) if number % 500 == 0 else most
        self.assertGreater(number, 2000)
        self.assertLess(most, 200)


class OverModels(unittest.TestCase):
    def test_stored_runs(self):
        folders = sorted(name for name in os.listdir(RUNS) if os.path.isdir(os.path.join(RUNS, name)))
        self.assertGreater(len(folders), 30)
        for name in folders:
            with self.subTest(run=name):
                self.assertEqual(unexplained(*support.stored(name)), [])

    def explained(self, generated, **keys):
        """The reasons that come up over what the model of tools/evaluate writes in version 2; nothing is unexplained."""
        waits = set()
        images = [support.image_of_words(name, words) for name, words in PROGRAMS.items()]
        images += [support.file_of(f"generated_{seed}.elf", generated_image(seed, BLOCKS // 4)) for seed in range(generated)]
        for image in images:
            for description in support.descriptions(2, **keys):
                lines = support.modelled(description, image, CYCLES)
                run, _, items = support.replay(lines, image, description)
                with self.subTest(image=os.path.basename(image), description=os.path.basename(description)):
                    self.assertEqual(run.reasons.unexplained, [])
                waits |= {wait.reason for item in items for wait in item.waits}
        return waits

    def test_small_programs_in_version_2(self):
        self.assertEqual(self.explained(GENERATED), IN_VERSION_2)

    def test_small_programs_with_history(self):
        self.assertEqual(self.explained(0, history=3, returns=2), IN_VERSION_2)

    def test_small_programs_with_two_levels(self):
        keys = {"second_sets": 2, "second_ways": 2, "second_latency": 4, "prefetch": 1}
        found = self.explained(0, misaligned=1, mshrs=3, hit_latency=2, miss_latency=20, **keys)
        self.assertEqual(found, IN_VERSION_2 | {"two miss registers"})


def runs():
    """Worked traces and stored runs: a name, the lines, the image, the description."""
    late = support.image_of_words("late_data", PROGRAMS["store whose data comes late"])
    for heading, image, description in WORKED:
        yield heading, support.worked_trace(heading), support.example(image) if image else late, support.example(description)
    for name in STORED:
        yield name, *support.stored(name)


class EveryEventMatters(unittest.TestCase):
    def noticed(self, *files):
        try:
            return unexplained(*files)
        except Fault:
            return True

    def test_an_event_that_is_missing_is_noticed(self):
        for name, trace, *files in runs():
            for number, event, lines in without_one_event(trace):
                with self.subTest(trace=name, cycle=number, event=event):
                    self.assertTrue(self.noticed(lines, *files))

    def test_an_event_that_is_late_is_noticed(self):
        for name, trace, *files in runs():
            for number, event, lines in without_one_event(trace):
                if lines[number].startswith("end"):
                    continue
                lines[number] = with_event(lines[number], event)
                with self.subTest(trace=name, cycle=number, event=event):
                    self.assertTrue(self.noticed(lines, *files))


def phase_of(event):
    return EVENTS[event.split(":")[0]][0]


def with_event(line, event):
    """The line with one event more, which is the first of its phase: so that the order of the phases doesn't tell it."""
    first, *events = line.split()
    place = sum(phase_of(other) < phase_of(event) for other in events)
    return " ".join([first, *events[:place], event, *events[place:]]) + "\n"


def live_items():
    return sum(isinstance(thing, Item) for thing in gc.get_objects())


def without_one_event(lines):
    """The trace without one of its events, for each: the cycle, the event, and the lines."""
    for number, line in enumerate(lines[:-1], 1):
        first, *events = line.split()
        for place, event in enumerate(events):
            left = [first, *events[:place], *events[place + 1:]]
            yield number, event, [*lines[:number - 1], " ".join(left) + "\n", *lines[number:]]
