"""Each wrong rule that the tables of runs/README.md and runs/wrong_rules.md have is seen by each run and fact that stands beside it, and
those of which no run tells anything are seen by none of the runs that are mixed of everything."""
import os
import sys
import unittest

HERE = os.path.dirname(os.path.dirname(os.path.realpath(__file__)))

sys.dont_write_bytecode = True
import wrong_alike
import wrong_core
import wrong_defence
import wrong_lines
import wrong_memory
import wrong_parts
import wrong_passing
import wrong_prediction
import wrong_settings
import wrong_tables
import wrong_taint
from cases import CASES, run
from wrong import cell, changed, listed

THEMES = [wrong_core, wrong_parts, wrong_memory, wrong_lines, wrong_prediction, wrong_tables,
          wrong_passing, wrong_taint, wrong_defence, wrong_settings]
WRONG = [rule for theme in THEMES for rule in theme.WRONG]
UNSEEN = wrong_alike.ALIKE + wrong_alike.PROVED
MIXED = [name for name in CASES if name.startswith("mixed_")]


class Wrong(unittest.TestCase):
    def test_each_is_seen(self):
        for what, old, new, names in WRONG:
            other = changed(old, new)
            for name in names:
                with self.subTest(what, name=name):
                    self.assertNotEqual(run(CASES[name], other)[0], CASES[name].trace)

    def test_what_no_run_tells_is_seen_by_none(self):
        for what, old, new, _ in UNSEEN:
            other = changed(old, new)
            for name in MIXED:
                with self.subTest(what, name=name):
                    self.assertEqual(run(CASES[name], other)[0], CASES[name].trace)

    def test_the_tables_have_each(self):
        rows = listed()
        for what, _, _, names in WRONG:
            with self.subTest(what):
                self.assertEqual(rows[what], cell(names))
        for what, _, _, why in wrong_alike.ALIKE:
            with self.subTest(what):
                self.assertEqual(rows[what], why)
        for what, _, _, name in wrong_alike.PROVED:
            with self.subTest(what):
                self.assertEqual(rows[what], cell([name]))

    def test_each_has_a_name_of_its_own(self):
        names = [rule[0] for rule in WRONG + UNSEEN]
        self.assertEqual(sorted({name for name in names if names.count(name) > 1}), [])


if __name__ == "__main__":
    unittest.main()
