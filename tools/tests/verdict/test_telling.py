"""What a trace tells of bytes that differ, on the worked traces (docs/traces.md)."""
import os
import unittest

from material import BOUND_0, CODE, CORE, DATA, RUNS, SECRET, gadget, program, support
from wadrelwy.verdict.chain import MOST_OF_CHAIN, Chain
from wadrelwy.verdict.loaded import load
from wadrelwy.verdict.telling import Telling
from wadrelwy.view import Fault
from wadrelwy.view.description import read_description
from wadrelwy.view.trace import Trace


def telling(name, heading, differing=(SECRET,), secret=0x11, change=("", ""), watched=-1):
    """What a worked trace tells of the secret; with a change the trace is another one. Of the entry that is watched it tells the chain."""
    image = gadget(name, BOUND_0 + bytes([secret])) if name in support.EXAMPLES else program(name)
    text = "".join(support.worked_trace(heading)).replace(*change)
    return Telling(Trace(text.splitlines(keepends=True)), image, read_description(CORE), differing, watched=watched)


def bounds_check(**changes):
    return telling("bounds_check", "Bounds check bypass", **changes)


def fault_shadow(**changes):
    return telling("fault_shadow", "Fault shadow", **changes)


def forwarding(**changes):
    return telling("forwarding", "Forwarding", **changes)


def held(found):
    return {key: (held.times, held.cycles) for key, held in found.held.items()}


class Worked(unittest.TestCase):
    def test_bounds_check(self):
        """The last load's base is there in 15, and the branch is resolved in 17, before Issue: 15 and 16."""
        found = bounds_check()
        self.assertEqual(held(found), {(CODE + 0x18, "access"): (1, 2)})
        self.assertEqual(list(found.wrong_loads), [CODE + 12])
        self.assertEqual(found.shown, {})

    def test_division(self):
        """The dividend is there in 13, and in 17 all is dropped: 13 to 16."""
        self.assertEqual(held(telling("tainted_divisor", "Division by a secret")), {(CODE + 0x10, "time"): (1, 4)})

    def test_jump(self):
        """The JALR is Done in 15, and dropped in 17, as an older branch is resolved: 15 and 16."""
        self.assertEqual(held(telling("target_injection", "Jump to a secret address")), {(CODE + 0x14, "target"): (1, 2)})

    def test_store(self):
        """The store's address is tainted when the load behind it accesses the cache, in 15."""
        self.assertEqual(held(telling("tainted_store", "Store with a tainted address", secret=0)), {(CODE + 0x14, "address before a load"): (1, 1)})

    def test_fault_shadow(self):
        """Under `spectre` a fault casts no shadow: the load behind it shows the secret, in 16."""
        found = fault_shadow()
        self.assertEqual((held(found), found.shown), ({}, {(CODE + 0x14, "access"): (1, 16, 0)}))
        self.assertIsNone(found.chain)

    def test_chain(self):
        """The address of the last load is made by the load of the secret, the shift and the sum, in this order; no other entry shows it."""
        self.assertEqual(fault_shadow(watched=5).chain, (SECRET, (CODE + 8, CODE + 12, CODE + 16), 3))
        self.assertIsNone(fault_shadow(watched=4).chain)

    def test_long_chain(self):
        """Of a long chain the last instructions are kept, and how many they were."""
        chain = Chain(SECRET)
        for place in range(MOST_OF_CHAIN + 3):
            chain = chain.on(CODE + 4 * place)
        self.assertEqual((chain.byte, chain.length, len(chain.last)), (SECRET, MOST_OF_CHAIN + 3, MOST_OF_CHAIN))
        self.assertEqual((chain.last[0], chain.last[-1]), (CODE + 4 * 3, CODE + 4 * (MOST_OF_CHAIN + 2)))

    def test_other_bytes(self):
        """Where what differs isn't loaded, nothing is held on it."""
        found = bounds_check(differing=[DATA + 4])
        self.assertEqual((held(found), found.shown, found.wrong_loads), ({}, {}, {}))

    def test_bytes_of_the_path(self):
        """The bound is loaded on the path: the branch on it shows it, in 17."""
        self.assertEqual(bounds_check(differing=[DATA]).shown, {(CODE + 8, "direction"): (1, 17, 1)})

    def test_forwarding_and_wrong_paths(self):
        """What is computed agrees with the trace: a wholly forwarded load, one that isn't, misses of a wrong path."""
        for found in (forwarding(), telling("wrong path misses", "Misses of a wrong path")):
            self.assertEqual((found.reasons.unexplained, held(found), found.shown), ([], {}, {}))


def stored(run, differing=None, change=("", "")):
    """What the trace of a stored run, or one with another text in it, tells of these bytes, or of all."""
    machine = read_description(os.path.join(run, "core.toml"))
    image = load(os.path.join(run, "image.elf"), machine)
    with open(os.path.join(run, "trace"), encoding="ascii") as trace:
        lines = trace.read().replace(*change).splitlines(keepends=True)
    return Telling(Trace(lines), image, machine, differing or range(machine.base, machine.base + machine.size))


class StoredRuns(unittest.TestCase):
    def test_a_store_without_data(self):
        """In version 2: the store's address is made of the secret and tainted, and it has no data, so the load behind it waits: 15, 16."""
        run = next(run for run in RUNS if os.path.basename(run) == "tainted_address")
        self.assertEqual(held(stored(run, [SECRET])), {(CODE + 0x14, "address before a load"): (1, 2)})

    def test_values(self):
        """What is computed along the traces of other models, wrong paths too, is what they tell."""
        wrong = 0
        for run in RUNS:
            found = stored(run)
            self.assertEqual(found.reasons.unexplained, [], run)
            wrong += sum(found.wrong_loads.values())
        self.assertGreater(wrong, 20)


@unittest.skipIf(support.NO_IMAGES, support.NO_IMAGES)
class OtherTraces(unittest.TestCase):
    """A trace that isn't one of the image is told from one that is by what is computed."""

    def test_one_line_of_two(self):
        for name, old, message in [("later_of_two_lines", "ld:2:0001ffe0:h ", "0001ffe0:m 0001fff0: is computed"),
                                   ("store_moves_both_lines", "st:6:0001ffe0:h ", "writes line 0001fff0, and 0001ffe0 0001fff0 is computed")]:
            run = next(run for run in RUNS if os.path.basename(run) == name)
            with self.subTest(name), self.assertRaisesRegex(Fault, message):
                stored(run, change=(old, ""))

    def refused(self, run, old, new, message):
        with self.assertRaisesRegex(Fault, message):
            run(change=(old, new))

    def test_line(self):
        self.refused(fault_shadow, "ld:5:0001f900:m", "ld:5:0001fa10:m", "0001f900:m is computed")

    def test_direction(self):
        self.refused(bounds_check, "res:2:T", "res:2:N", "T is computed")

    def test_time(self):
        self.refused(forwarding, "div:0:20", "div:0:19", "20 is computed")

    def test_fault(self):
        self.refused(fault_shadow, "ld:1:x", "ld:1:f", "x is computed")


if __name__ == "__main__":
    unittest.main()
