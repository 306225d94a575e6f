"""Accesses across two lines, the second level and the prefetch, on stored runs of tools/evaluate."""
import unittest

import support
from wadrelwy.view.listing import notes
from wadrelwy.view.stats import lines_of
from wadrelwy.view.why import cycles


def waits(item):
    return [(cycles(wait), wait.reason) for wait in item.waits]


class Runs(unittest.TestCase):
    def told(self, name, *changes):
        """What is unexplained where these texts stand for others in these lines of a run."""
        lines, *files = support.stored(name)
        for number, old, new in changes:
            self.assertIn(old, lines[number - 1])
            lines[number - 1] = lines[number - 1].replace(old, new)
        return support.replay(lines, *files)[0].reasons.unexplained


class TwoLines(Runs):
    def test_the_line_that_comes_later_counts(self):
        for name, found, unit in [("later_of_two_lines", ["hit 0001ffe0, miss 0001fff0"], "miss"),
                                  ("lower_line_comes_later", ["miss 0001ffe0, hit 0001fff0"], "miss"),
                                  ("memory_and_second", ["second 0001ffe0, miss 0001fff0"], "miss")]:
            _, entries, _ = support.replay(*support.stored(name))
            load = next(item for item in entries.values() if len(item.lines) == 2)
            self.assertEqual((list(notes(load)), load.unit), (found, unit))

    def test_a_load_waits_for_two_registers(self):
        run, entries, _ = support.replay(*support.stored("registers_for_both_lines"))
        self.assertEqual(waits(entries[1]), [("3", "port"), ("4..12", "two miss registers")])
        self.assertEqual(run.reasons.unexplained, [])

    def test_a_store_has_two_lines(self):
        _, entries, _ = support.replay(*support.stored("store_moves_both_lines"))
        self.assertEqual(list(notes(entries[6]))[-2:], ["writes 0001ffe0, hit", "writes 0001fff0, hit"])

    def test_the_lower_line_comes_first(self):
        lower, upper = "ld:0:0001ffe0:m", "ld:0:0001fff0:m"
        told = self.told("across_two_lines", (3, f"{lower} {upper}", f"{upper} {lower}"))
        self.assertIn("cycle 3: load 0 accesses the lines [0001fff0, 0001ffe0]", told)

    def test_two_lines_take_two_registers(self):
        lines = "ld:1:0001ffe0:m ld:1:0001fff0:m"
        told = self.told("registers_for_both_lines", (4, "alu:2", f"{lines} alu:2"), (13, f" {lines}", ""))
        self.assertIn("cycle 4: load 1 takes 2 miss registers, and there are too few", told)

    def test_one_line_where_addresses_are_multiples_of_the_width(self):
        told = self.told("next_line_fetched", (3, "pf:0001ffe0:m", "ld:0:0001ffe0:m"))
        self.assertIn("cycle 3: load 0 accesses the lines [0001ffd0, 0001ffe0]", told)


class Levels(Runs):
    def test_a_line_of_the_second_level(self):
        self.assertEqual(self.told("found_in_second"), [])
        told = self.told("found_in_second", (26, ":2", ":m"))
        self.assertIn("cycle 26: load 5: `m` for line 0001fff0, where `2` is right", told)

    def test_what_is_prefetched(self):
        told = self.told("next_line_fetched", (3, " pf:0001ffe0:m", ""))
        self.assertIn("cycle 3: load 0 prefetches nothing, where pf:0001ffe0:m is right", told)
        told = self.told("prefetch_from_second", (15, "pf:0001ffe0:2", "pf:0001ffe0:m"))
        self.assertIn("cycle 15: load 3 prefetches pf:0001ffe0:m, where pf:0001ffe0:2 is right", told)
        for name, number, old in [("no_prefetch_for_a_join", 14, "ld:5:0001ffb0:j"), ("no_prefetch_for_a_hit", 14, "ld:2:0001ffd0:h"),
                                  ("no_prefetch_behind_memory", 3, "ld:0:0001fff0:m"),
                                  ("no_prefetch_without_register", 3, "ld:0:0001ffe0:m")]:
            line = int(old.split(":")[2], 16) + 16
            told = self.told(name, (number, old, f"{old} pf:{line:08x}:m"))
            self.assertTrue(any(f"prefetches pf:{line:08x}:m, where nothing is right" in text for text in told), name)

    def test_what_is_counted(self):
        lines, image, description = support.stored("mixed_memory_1")
        run, disassembler = support.fresh(lines, image, description)
        told = list(lines_of(support.taken(run, disassembler)))
        for name, value in [("loads: second level", "4"), ("loads in two lines", "4"),
                            ("lines prefetched", "5, from the second level 3"), ("unexplained", "0")]:
            self.assertIn(f"{name:26}{value}", told)

    def test_what_is_not_there_is_not_counted(self):
        run, disassembler = support.fresh(*support.stored("late_data"))
        told = "\n".join(lines_of(support.taken(run, disassembler)))
        for name in ("second level", "two lines", "prefetched"):
            self.assertNotIn(name, told)
