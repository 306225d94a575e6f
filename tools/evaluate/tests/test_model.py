"""The model of tools/evaluate writes the trace of each run, also of those that were written elsewhere, and of each fact."""
import os
import sys
import unittest

HERE = os.path.dirname(os.path.dirname(os.path.realpath(__file__)))

sys.dont_write_bytecode = True
import cases
import facts


class Model(unittest.TestCase):
    def test_it_writes_each_run(self):
        for name, case in cases.RUNS.items():
            with self.subTest(name):
                self.assertEqual(cases.run(case), (case.trace, case.status))

    def test_each_fact_is_read(self):
        self.assertEqual(list(cases.FACTS), facts.names())

    def test_it_writes_each_fact(self):
        for name, case in cases.FACTS.items():
            with self.subTest(name):
                self.assertEqual(cases.run(case)[0], case.trace)


if __name__ == "__main__":
    unittest.main()
