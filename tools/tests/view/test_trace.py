"""The text of a trace (docs/formats.md, "The trace" and "The last line")."""
import io
import random
import unittest

import support
from wadrelwy.view import Fault
from wadrelwy.view.rows import EVENTS, TABLE, Row, scan
from wadrelwy.view.trace import Progress, Trace

SHORT = """1 fet:00010000 fet:00010004
2 ren:0:00010000 fet:00010008
3 alu:0
4 done:0 ret:0 ren:1:00010004
5 ret:1 call:1:0
end exit 0 retired 2 cycles 5
"""


def lines(text):
    return iter(text.splitlines(keepends=True))


def row_of(line):
    row = Row()
    row.begin(1, line)
    return row


def told_of(phases):
    """All that events tell, by their phases."""
    return [[(event.name, event.number, event.second, event.text) for event in phase] for phase in phases]


class Rows(unittest.TestCase):
    def test_rows_and_last_line(self):
        trace = Trace(lines(SHORT))
        rows = list(trace)
        self.assertEqual([row.cycle for row in rows], [1, 2, 3, 4, 5])
        self.assertEqual(rows[1].events, ["ren:0:00010000", "fet:00010008"])
        self.assertEqual((trace.end.how, trace.end.retired, trace.end.cycles), ("exit 0", 2, 5))

    def test_each_name_has_a_place_of_its_own(self):
        self.assertEqual(sorted(shape.name for shape in TABLE if shape.name), sorted(EVENTS))

    def test_letter_by_letter(self):
        """What compiled modules read letter by letter is what `split` finds, or they leave a line that isn't just as written to it."""
        draw, found = random.Random(7), 0
        texts = [line for run in ("mixed_1", "mixed_any_address_1", "mixed_memory_1", "half_issued") for line in support.stored(run)[0]]
        for line in texts:
            row = row_of(line)
            if not line.startswith("end "):
                self.assertEqual(told_of(scan(line)), told_of(row.split()))
            for _ in range(20):
                place = draw.randrange(len(line))
                other = line[:place] + draw.choice(" ::fxhm2J09a_+-") + line[place + draw.choice((0, 1, 3)):-1] + "\n"
                told = scan(other)
                if told is not None:
                    found += 1
                    self.assertEqual(told_of(told), told_of(row_of(other).split()), other)
        self.assertGreater(found, 100)

    def test_only_a_run_that_ended_ends_in_retire(self):
        for end, ends in (("exit 7", True), ("trap 5 00010004", True), ("budget", False)):
            rows = list(Trace(lines(f"1\n2\nend {end} retired 0 cycles 2\n")))
            self.assertEqual([row.ends for row in rows], [False, ends], end)

    def test_phases(self):
        for told, resolved, cleared in [("res:2:T bp:2:2 sq:7", ["res", "bp", "sq"], []), ("clr:1", [], ["clr"]),
                                        ("clr:1 vio:3 dp:3:1 sq:4", [], ["clr", "vio", "dp", "sq"]),
                                        ("res:2:T bp:2:2 sq:7 clr:1 vio:3 dp:3:1 sq:0", ["res", "bp", "sq"], ["clr", "vio", "dp", "sq"])]:
            text = f"1 fill:0001fff0 done:0 {told} ret:2 ld:6:0001fff0:h ren:3:00010000 fet:00010004\n"
            row = next(iter(Trace(lines(text))))
            self.assertEqual([[event.name for event in phase] for phase in row.phases()],
                             [["fill"], ["done"], resolved, cleared, ["ret"], ["ld"], ["ren"], ["fet"]])

    def test_the_order_of_the_phases(self):
        """Where events stand in another one, reading letter by letter leaves the line to `split`, which tells it."""
        for text, ordered in [("1 fill:0001fff0 done:0 ret:0 fet:00010000\n", True), ("1 clr:1 vio:3 dp:3:1 sq:4 ret:1\n", True),
                              ("1 done:0 fill:0001fff0\n", False), ("1 ret:0 done:1\n", False), ("1 fet:00010000 ren:0:00010000 fet:00010004\n", False)]:
            row = row_of(text)
            row.split()
            self.assertEqual((row.ordered, scan(text) is not None), (ordered, ordered), text)

    def test_a_torn_trace_has_its_whole_lines(self):
        trace = Trace(lines("1 fet:00010000\n2 ren:0:000"))
        self.assertEqual(([row.cycle for row in trace], trace.end), ([1], None))

    def test_what_is_no_trace_is_refused(self):
        for text in ("x0 00000000\n", "2 fet:00010000\n", "1\n3\n", "end what retired 0 cycles 0\n", "\n",
                     f"1\nend budget retired {'1' * 5000} cycles 1\n"):
            with self.assertRaises(Fault, msg=text):
                list(Trace(lines(text)))
        for text in ("1 nonsense:1\n", "1 res:2:Q\n", "1 res:2\n", "1 st:2:0001fff0:2\n"):
            with self.assertRaises(Fault, msg=text):
                next(iter(Trace(lines(text)))).phases()

    def test_the_worked_traces_are_read(self):
        self.assertEqual(len(list(Trace(iter(support.worked_trace("Bounds check bypass"))))), 21)


class Screen(io.StringIO):
    def __init__(self, is_terminal):
        super().__init__()
        self.is_terminal = is_terminal

    def isatty(self):
        return self.is_terminal


class HowFar(unittest.TestCase):
    def test_only_a_terminal_is_told_how_far_it_is(self):
        for is_terminal, told in ((True, ["cycle 0", "cycle 5000", "cycle 10000", "", ""]), (False, [])):
            screen = Screen(is_terminal)
            self.assertEqual(sum(1 for _ in Progress(iter(["1\n"] * 12000), screen=screen)), 12000)
            self.assertEqual([text.strip() for text in screen.getvalue().split("\r")[1:]], told)
