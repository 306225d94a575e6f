"""Why instructions wait, on the worked traces of docs/machine.md: what is expected is what the text beside them says."""
import unittest

import support
from programs import PROGRAMS
from wadrelwy.view import Fault
from wadrelwy.view.checks import Checks
from wadrelwy.view.items import Item
from wadrelwy.view.rows import Event
from wadrelwy.view.why import cycles


def waits(item):
    """What an entry waited for: cycles, reason, and the entry waited for."""
    return [(cycles(wait), wait.reason, None if wait.serial < 0 else wait.serial) for wait in item.waits]


def example(heading, name):
    """A worked trace of an example, taken through."""
    return support.replay(support.worked_trace(heading), support.example(name + ".elf"), support.example("core.toml"))


class WorkedTraces(unittest.TestCase):
    def test_bounds_check(self):
        """The shift and the sum execute, but the last load waits: its base is tainted by the load of the secret."""
        run, entries, items = support.bounds_check()
        self.assertEqual(waits(entries[1]), [("3..12", "operand", 0)])
        self.assertEqual(waits(entries[3]), [])
        self.assertEqual(waits(entries[6]), [("6..14", "operand", 5), ("15..16", "taint", 3)])
        self.assertEqual((entries[6].issued, entries[6].squashed), (None, 17))
        self.assertEqual((entries[2].resolved, entries[2].outcome, entries[2].mispredicted), (17, "T", True))
        self.assertEqual(sum(item.squashed is not None for item in items), 7)
        self.assertEqual(run.reasons.unexplained, [])

    def test_store_with_a_tainted_address(self):
        """A store issues on a tainted address; the load behind it has an untainted base, and waits for the store alone."""
        run, entries, _ = example("Store with a tainted address", "tainted_store")
        self.assertEqual((entries[5].issued, waits(entries[5])), (14, [("5..13", "operand", 4)]))
        self.assertEqual((entries[6].unit, entries[6].issued, waits(entries[6])), ("hit", 15, [("6..14", "older store", 5)]))
        self.assertEqual(run.reasons.unexplained, [])

    def test_division_by_a_secret(self):
        """The secret is there in cycle 13, but the division waits, and is dropped in 17."""
        run, entries, _ = example("Division by a secret", "tainted_divisor")
        self.assertEqual(waits(entries[4]), [("5..12", "operand", 3), ("13..16", "taint", 3)])
        self.assertEqual(run.reasons.unexplained, [])

    def test_jump_to_a_secret_address(self):
        """It is Done in 15, but isn't resolved while its operand is tainted, and is dropped in 17."""
        run, entries, _ = example("Jump to a secret address", "target_injection")
        self.assertEqual((entries[5].issued, entries[5].done, entries[5].resolved), (14, 15, None))
        self.assertEqual(waits(entries[5])[-1], ("15..16", "taint, to be resolved", 3))
        self.assertEqual(run.reasons.unexplained, [])

    def test_fault_shadow(self):
        """No branch is in flight, so under spectre every load is visible at once, also behind the one that will trap."""
        run, entries, _ = example("Fault shadow", "fault_shadow")
        self.assertEqual(waits(entries[5]), [("5..15", "operand", 4)])
        self.assertEqual((entries[1].unit, entries[1].trapped), ("fault", 23))
        self.assertEqual(run.reasons.unexplained, [])

    def test_fault_shadow_futuristic(self):
        """Under futuristic an entry behind a fault is never visible: cycle 16 is `16 done:4`, and the rest stays."""
        lines = support.worked_trace("Fault shadow")
        lines[15] = "16 done:4\n"
        run, entries, _ = support.replay(lines, support.example("fault_shadow.elf"), support.example("core_futuristic.toml"))
        self.assertEqual(waits(entries[5])[-1], ("16..22", "taint", 2))
        self.assertEqual(run.reasons.unexplained, [])

    def test_forwarding(self):
        """The first load takes two bytes from the store and two from memory; the second is wholly forwarded."""
        image = support.image_of_words("forwarding", PROGRAMS["forwarding"])
        run, entries, _ = support.replay(support.worked_trace("Forwarding"), image, support.example("core.toml"))
        self.assertEqual([entries[serial].unit for serial in (3, 5)], ["miss", "forward"])
        self.assertEqual(waits(entries[3]), [("4", "older store", 2)])
        self.assertEqual((entries[2].written, entries[4].written), (((0x0001fff0, "h"),), ((0x0001fff0, "h"),)))
        self.assertEqual(run.reasons.unexplained, [])

    def test_misses_of_a_wrong_path(self):
        """The squash drops the loads, but their misses go on: the load of the right path waits for a register until 23."""
        image = support.image_of_words("wrong_path", PROGRAMS["wrong path misses"])
        run, entries, _ = support.replay(support.worked_trace("Misses of a wrong path"), image, support.example("core.toml"))
        self.assertEqual(waits(entries[8]), [("19..22", "miss register", None)])
        self.assertEqual(entries[8].issued, 23)
        self.assertEqual(run.reasons.unexplained, [])

    def test_rename_stops_short(self):
        """Four loads may be in flight, so the fifth isn't renamed until one retires in 13. Then the call waits to be alone."""
        image = support.image_of_words("wrong_path", PROGRAMS["wrong path misses"])
        run, _, _ = support.replay(support.worked_trace("Misses of a wrong path"), image, support.example("core.toml"))
        stalls = [(cycles(stall), stall.reason, hex(stall.pc)) for stall in run.front.stalls]
        self.assertEqual(stalls[:2], [("5..12", "loads", "0x10018"), ("14..16", "call waits to be alone", "0x10020")])


class StoresInParts(unittest.TestCase):
    """In version 2: the worked trace of a store whose data comes late, and stored runs of tools/evaluate."""

    def late(self, lines):
        image = support.image_of_words("late_data", PROGRAMS["store whose data comes late"])
        return support.replay(lines, image, support.example("core_version_2.toml"))

    def told(self, *changes):
        """What is unexplained where these texts stand for others in these lines."""
        lines = support.worked_trace("Store whose data comes late")
        for number, old, new in changes:
            self.assertIn(old, lines[number - 1])
            lines[number - 1] = lines[number - 1].replace(old, new)
        return self.late(lines)[0].reasons.unexplained

    def test_data_that_comes_late(self):
        """The load of other bytes goes in 4; that of the store's bytes waits until the data has issued, in 23."""
        run, entries, _ = self.late(support.worked_trace("Store whose data comes late"))
        self.assertEqual((entries[1].parts, entries[1].issued, entries[1].done), ({"agu": 3, "std": 23}, 23, 24))
        self.assertEqual([waits(entries[serial]) for serial in (1, 2, 3)], [
            [("3..22", "data", 0)], [], [("4", "port", None), ("5..23", "older store's data", 1)]])
        self.assertEqual(run.reasons.unexplained, [])

    def test_a_tainted_address_without_data(self):
        """The store's address issues in 14 and is tainted until the branch is resolved, in 17; its data issues in 16."""
        run, entries, _ = support.replay(*support.stored("tainted_address"))
        self.assertEqual(waits(entries[5]), [("5..13", "base", 4), ("14..15", "data", 1)])
        self.assertEqual(waits(entries[6]), [("6..14", "older store's address", 5), ("15..16", "older store's tainted address", 5)])
        self.assertEqual(run.reasons.unexplained, [])

    def test_ports_of_stores(self):
        """Two stores whose sources are all there: the second one's parts issue a cycle later."""
        run, entries, _ = support.replay(*support.stored("one_port_each"))
        self.assertEqual(waits(entries[1]), [("3", "address port", None)])
        run, entries, _ = support.replay(*support.stored("half_issued"))
        self.assertEqual(waits(entries[2]), [("4..22", "data", 0), ("23", "data port", None)])
        self.assertEqual(run.reasons.unexplained, [])

    def test_a_part_that_issues_before_its_source(self):
        told = self.told((5, "alu:4", "std:1 alu:4"), (23, " std:1", ""))
        self.assertIn("cycle 5: store 1 issues `std`, but has to wait: data", told)

    def test_a_part_that_waits_for_nothing(self):
        told = self.told((3, " agu:1", ""), (4, "ld:2", "agu:1 ld:2"))
        self.assertIn("cycle 3: store 1 lacks its `agu`, and nothing tells why", told)

    def test_a_load_that_goes_before_the_address(self):
        told = self.told((3, " agu:1", ""), (5, "alu:4", "agu:1 alu:4"))
        self.assertIn("cycle 4: entry 2 issues, but has to wait: older store's address", told)

    def test_a_load_that_goes_before_the_data(self):
        """That the two have a byte in common is told by its wait alone; so it mustn't go before something has changed."""
        told = self.told((22, "22", "22 ld:3:0001fff0:h"), (24, " ld:3:0001fff0:h", ""),
                         (24, "done:1", "done:1 done:3"), (26, "done:3 ", ""))
        self.assertIn("cycle 22: load 3 issues, and no store has got the data that it waited for", told)

    def test_the_order_of_the_events(self):
        told = self.told((3, "div:0:20 agu:1", "agu:1 div:0:20"))
        self.assertEqual(told, ["cycle 3: the events of Issue don't go from the oldest entry on: agu:1 div:0:20"])


class Unexplained(unittest.TestCase):
    def told(self, lines, image="bounds_check.elf", description="core.toml"):
        return support.replay(lines, support.example(image), support.example(description))[0].reasons.unexplained

    def changed(self, number, old, new):
        lines = support.worked_trace("Bounds check bypass")
        self.assertIn(old, lines[number - 1])
        lines[number - 1] = lines[number - 1].replace(old, new)
        return lines

    def test_a_load_that_issues_on_a_tainted_base(self):
        told = self.told(self.changed(15, "done:5", "done:5 ld:6:0001f900:m"))
        self.assertTrue(any("entry 6 issues, but has to wait: taint" in text for text in told), told)

    def test_an_instruction_that_waits_for_nothing(self):
        told = self.told(self.changed(6, " alu:7", ""))
        self.assertTrue(any("cycle 6: entry 7 waits, and nothing tells why" in text for text in told), told)

    def test_a_result_that_is_late(self):
        told = self.told(self.changed(14, " done:4", ""))
        self.assertTrue(any("cycle 14: entries [] are done, [4] are due" in text for text in told), told)

    def test_a_hit_where_the_line_is_not_there(self):
        told = self.told(self.changed(3, "ld:0:0001fff0:m", "ld:0:0001fff0:h"))
        self.assertTrue(any("`h` for line 0001fff0, where `m` is right" in text for text in told), told)

    def test_where_a_run_may_end(self):
        """By an exit of the call that retires last, or by a trap of the oldest entry, with a cause of its kind."""
        for heading, image, ends in (("Bounds check bypass", "bounds_check.elf", ("trap 5 00010020",)),
                                     ("Fault shadow", "fault_shadow.elf", ("trap 5 00010008", "trap 7 00010004", "trap 2 00010004", "exit 0"))):
            *lines, last = support.worked_trace(heading)
            for end in ends:
                other = f"end {end} retired {last.split('retired ')[1]}"
                told = self.told([*lines, other], image)
                self.assertEqual(told, [f"cycle {len(lines)}: the run ends by `{end}`, which is neither an exit of the call that retires last "
                                        "nor a trap of the oldest entry"])
        *lines, last = support.worked_trace("Fault shadow")
        self.assertEqual(self.told([*lines, last.replace("trap 5", "trap 4")], "fault_shadow.elf"), [], "an address isn't told")

    def test_what_the_last_line_counts(self):
        *lines, last = support.worked_trace("Bounds check bypass")
        for other, told in ((last.replace("retired 5", "retired 6"), "tells of 6 retired in 21 cycles"),
                            (last.replace("cycles 21", "cycles 22"), "tells of 5 retired in 22 cycles")):
            self.assertEqual(self.told([*lines, other]), [f"cycle 21: the last line {told}, and 5 did in 21"])

    def test_nothing_follows_an_end_in_retire(self):
        self.assertEqual(self.told(self.changed(21, "call:9:0", "call:9:0 fet:00010028")),
                         ["cycle 21: the run has ended in Retire, and a later phase has events"])

    def test_the_order_of_the_phases(self):
        self.assertEqual(self.told(self.changed(17, "done:2 res:2:T bp:2:2 sq:7", "res:2:T bp:2:2 sq:7 done:2")),
                         ["cycle 17: the events don't stand in the order of the phases"])

    def test_serials_count_up(self):
        lines = support.worked_trace("Bounds check bypass")
        for number, old, new in ((18, "ren:8:", "ren:18:"), (19, "alu:8", "alu:18"), (20, "done:8 ret:8 ren:9:", "done:18 ret:18 ren:19:"),
                                 (21, "ret:9 call:9:0", "ret:19 call:19:0")):
            self.assertIn(old, lines[number - 1])
            lines[number - 1] = lines[number - 1].replace(old, new)
        self.assertEqual(self.told(lines), ["cycle 18: entry 18 is renamed, where entry 8 is the next"])

    def test_where_fetch_goes_on(self):
        """Behind what is no jump at the next address; behind a branch that squashes where it goes."""
        self.assertEqual(self.told(self.changed(5, "fet:00010024", "fet:00010028")), ["cycle 5: 00010028 is fetched, where 00010024 is the next"])
        files = support.example("bounds_check.elf"), support.example("core.toml")
        run, _ = support.fresh(self.changed(17, "fet:0001001c fet:00010020", "fet:0001000c fet:00010010"), *files)
        with self.assertRaisesRegex(Fault, "ren:8:0001001c is not of the front of the queue"):
            list(run.items())
        self.assertEqual(run.reasons.unexplained, ["cycle 17: 0001000c is fetched, where 0001001c is the next"])

    def test_how_a_branch_is_resolved(self):
        self.assertEqual(self.told(self.changed(17, "bp:2:2", "bp:2:1")), ["cycle 17: branch 2 leaves counter 2 at 1, where 2 is right"])
        self.assertIn("cycle 17: entry 2, a branch, is resolved with the events res:2:J bp:2:2 sq:7", self.told(self.changed(17, "res:2:T", "res:2:J")))

    def test_a_counter_goes_up_and_down(self):
        """From 1 on, up to 3 and down to 0, each counter by itself (docs/machine.md, "Resolve")."""
        told = []
        checks, branch = Checks(support.bounds_check()[0].pipeline, told.append), Item()
        for taken, value in ((True, "2"), (True, "3"), (True, "3"), (False, "2"), (False, "1"), (False, "0"), (False, "0"), (True, "1")):
            checks.learn(branch, taken, Event("bp", 5, text=value))
        self.assertEqual(told, [])
        checks.learn(branch, True, Event("bp", 6, text="1"))
        self.assertEqual(len(told), 1)

    def test_a_load_that_faults_does_not_retire(self):
        *lines, _ = support.worked_trace("Fault shadow")
        lines[22] = lines[22].replace("ret:0", "ret:0 ret:1")
        self.assertIn("cycle 23: load 1 retires, and it faults", self.told([*lines, "end budget retired 2 cycles 23\n"], "fault_shadow.elf"))

    def test_what_no_access_and_no_division_tells(self):
        for old, new, told in (("div:0:20", "div:0:2", "cycle 3: division 0 takes 2 cycles, where 3 to 35 are right"),
                               ("ld:2:0001fff0:m", "ld:2:00020000:m", "cycle 4: load 2 accesses the lines [00020000]"),
                               ("ld:2:0001fff0:m", "ld:2:0000fff0:m", "cycle 4: load 2 accesses the lines [0000fff0]"),
                               ("ld:2:0001fff0:m", "ld:2:f", "cycle 4: load 2 is forwarded, but no older store has its address and its data")):
            text = "".join(support.worked_trace("Fault shadow"))
            self.assertEqual(text.count(old), 1)
            self.assertIn(told, self.told(text.replace(old, new).splitlines(keepends=True), "fault_shadow.elf"))

    def test_a_trace_under_another_description(self):
        told = self.told(support.worked_trace("Fault shadow"), "fault_shadow.elf", "core_futuristic.toml")
        held = [text for text in told if "has to wait: taint" in text]
        self.assertEqual(held, ["cycle 16: entry 5 issues, but has to wait: taint"])


STORE_THAT_FAULTS = """1 fet:00010000 fet:00010004
2 ren:0:00010000 ren:1:00010004 fet:00010008 fet:0001000c
3 div:0:20 agu:1 ren:2:00010008 ren:3:0001000c fet:00010010 fet:00010014
4 done:1 ld:2:0001fff0:m ren:4:00010010 ren:5:00010014 fet:00010018 fet:0001001c
5 ren:6:00010018 ren:7:0001001c fet:00010020 fet:00010024
6 alu:7
7 done:7
14 fill:0001fff0 done:2 alu:3
15 done:3 alu:6
16 done:6
"""


class StoresThatFault(unittest.TestCase):
    """Under futuristic what stands behind a store that faults is never visible, and no event tells that it faults.

    The store (1) goes to address 0, outside memory; the load (2) behind it gets its value, and the next one (4) has a base made
    of that, as the division (5) its operands: they could issue in 15 if the store were safe. The branch (6) executes, and isn't
    resolved.
    """

    def run_with(self, rest):
        lines = support.with_empty_rows(STORE_THAT_FAULTS + rest)
        image = support.image_of_words("store_that_faults", PROGRAMS["store that faults"])
        return support.replay(lines, image, support.example("core_futuristic.toml"))

    def test_the_wait_behind_it_is_explained(self):
        run, entries, _ = self.run_with("23 done:0 ret:0\nend trap 7 00010004 retired 1 cycles 23\n")
        self.assertEqual([waits(entries[serial])[-1] for serial in (4, 5, 6)], [
            ("15..22", "taint", 2), ("15..22", "taint", 2), ("16..23", "taint, to be resolved", 2)])
        self.assertEqual(run.reasons.unexplained, [])

    def test_but_not_if_the_store_retires(self):
        run, _, _ = self.run_with("23 done:0 ret:0 ret:1 st:1:00000000:m\nend budget retired 2 cycles 23\n")
        self.assertIn("cycle 23: store 1 retires; a wait was explained by its fault", run.reasons.unexplained)
