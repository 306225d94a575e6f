"""Branches and returns under global history and a return stack, on stored runs of tools/evaluate."""
import unittest

import support
from wadrelwy.riscv.kinds import instruction_of
from wadrelwy.view.stats import count


def resolved(name):
    """How many branches, JALRs and returns of a run were resolved, and how many of them were mispredicted."""
    run, _, items = support.replay(*support.stored(name))
    counts = count([items])
    return run.reasons.unexplained, [(counts.resolved[kind], counts.mispredicted[kind]) for kind in ("branch", "jalr", "return")]


class Predictions(unittest.TestCase):
    def test_returns(self):
        """A return goes where the stack says; without one it is mispredicted, and so is a JALR by another register than x1."""
        for name, found in [("return_by_stack", [(0, 0), (1, 0), (1, 0)]), ("return_without_stack", [(0, 0), (1, 1), (1, 1)]),
                            ("return_by_another_register", [(0, 0), (1, 1), (0, 0)]), ("full_stack", [(0, 0), (2, 1), (2, 1)]),
                            ("linking_jump", [(0, 0), (2, 1), (1, 0)])]:
            with self.subTest(name):
                self.assertEqual(resolved(name), ([], found))

    def test_branches(self):
        self.assertEqual(resolved("loop_by_history"), ([], [(2, 1), (0, 0), (0, 0)]))
        self.assertEqual(resolved("squash_by_history"), ([], [(3, 2), (0, 0), (0, 0)]))

    def test_what_is_a_return(self):
        """jalr x0,0(x1) and jalr x0,4(x1) are; jalr x1,0(x1), jalr x0,0(x5), jal x0,+8 and an addition aren't."""
        words = [0x00008067, 0x00408067, 0x000080e7, 0x00028067, 0x0080006f, 0x00108033]
        self.assertEqual([instruction_of(word).is_return for word in words], [True, True, False, False, False, False])
