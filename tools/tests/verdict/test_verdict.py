"""The command: verdicts on the gadgets, statuses, refusals (docs/using.md, "Read a verdict")."""
import os
import shutil
import signal
import subprocess
import sys
import tempfile
import time
import unittest

from material import BOUND_0, BOUND_1, CODE, CORE, CORE_FUTURISTIC, TOOLS, command, gadget, gadget_file, needs_program, support
from wadrelwy import statuses
from wadrelwy.verdict import judge, report, simulator
from wadrelwy.view.description import read_description

PASSING, UNPROTECTED, HOLD, DELAY = (support.example(f"core_{name}.toml") for name in ("passing", "unprotected", "hold", "delay"))
HIDES = [BOUND_0 + b"\x11", BOUND_0 + b"\x22"]                      # the secret differs
LOADS = [bytes(9), b"\1" + bytes(8)]                                # the bound does, which the path loads
SPARE = [bytes(9), bytes(7) + b"\1\0"]                              # a byte that nothing loads
TEXT = "".join(support.worked_trace("Bounds check bypass"))
OTHER = TEXT.replace("20 done:8 ret:8", "20 ret:8")


class Words(unittest.TestCase):
    """The six words: premises met or not, traces equal or not, something held or not; under the model `off` nothing is promised."""

    def case(self, data, premise=True, unequal=None, model="spectre"):
        images = [gadget("bounds_check", each) for each in data]
        traces = [text.splitlines(keepends=True) for text in (TEXT, OTHER if unequal else TEXT)]
        machine = read_description(CORE)._replace(model=model)
        return judge.judged("core.toml", machine, *images, simulator.Pair(*traces, premise, unequal))

    def test_words(self):
        for data, premise, unequal, word in [(HIDES, True, None, "hidden"), (SPARE, True, None, "vacuous"), (LOADS, False, None, "same"),
                                             (HIDES, True, 20, "refuted"), (LOADS, False, 20, "differs")]:
            self.assertEqual(self.case(data, premise, unequal).word(), word)
        self.assertEqual(report.STATUS, {"hidden": 0, "differs": 1, "vacuous": 13, "same": 14, "refuted": 16, "leaks": 1, "certified": 0,
                                         "exposed": 1})

    def test_words_without_protection(self):
        """Under `off` a pair that is unequal with the premises met is a leak, and no fault of what is proved."""
        for premise, unequal, word in [(True, 20, "leaks"), (False, 20, "differs"), (True, None, "same"), (False, None, "same")]:
            self.assertEqual(self.case(HIDES, premise, unequal, "off").word(), word)
        told = list(report.lines(self.case(HIDES, model="off")))
        self.assertIn("premises      met, and the model off promises nothing", told)

    def test_premise_of_the_simulator(self):
        """What the simulator says of the premises counts, and not what this tool finds."""
        self.assertEqual((self.case(HIDES, False).word(), self.case(LOADS, True).word()), ("same", "vacuous"))

    def test_answer(self):
        """The three lines of the simulator: docs/formats.md, "The comparison"."""
        for lines, told in [("premise yes\nequal\n", (True, None, 28, 9)), ("premise no\nequal\n", (False, None, 28, 9)),
                            ("premise no\nunequal 17\n", (False, 17, 28, 9)), ("premise no\nunequal end\n", (False, 28, 28, 9))]:
            self.assertEqual(simulator.answer(lines + "retired 9 cycles 28\n"), told)

    def test_lines(self):
        told = list(report.lines(self.case(HIDES)))
        self.assertIn("path          5 steps, ends by exit 0; 4 bytes loaded, none of them differs", told)
        self.assertIn("premises      met", told)
        self.assertIn("traces        equal in 21 cycles", told)
        self.assertRegex("\n".join(told), r"(?m)^memory        1 byte differs: 0001fff8 ")
        self.assertRegex("\n".join(told), r"(?m)^held          00010018 (lw|load) .*: its access, 1 time, 2 cycles, then dropped$")


@needs_program
class Gadgets(unittest.TestCase):
    """The table of docs/theorems.md, "Noninterference": what holds of each gadget under each model, with two secrets."""

    CASES = [
        ("bounds_check", 0x11, 0x22, CORE, "hidden", (CODE + 0x18, "its access")),
        ("bounds_check", 0x11, 0x22, CORE_FUTURISTIC, "hidden", (CODE + 0x18, "its access")),
        ("fault_shadow", 0x11, 0x22, CORE, "differs", None),
        ("fault_shadow", 0x11, 0x22, CORE_FUTURISTIC, "hidden", (CODE + 0x14, "its access")),
        ("tainted_store", 0, 1, CORE, "hidden", (CODE + 0x14, "its address before a load")),
        ("tainted_store", 0, 1, CORE_FUTURISTIC, "hidden", (CODE + 0x14, "its address before a load")),
        ("tainted_divisor", 0x11, 0x22, CORE, "hidden", (CODE + 0x10, "its time")),
        ("tainted_divisor", 0x11, 0x22, CORE_FUTURISTIC, "hidden", (CODE + 0x10, "its time")),
        ("target_injection", 0x11, 0x22, CORE, "hidden", (CODE + 0x14, "its target")),
        ("target_injection", 0x11, 0x22, CORE_FUTURISTIC, "hidden", (CODE + 0x14, "its target")),
        ("bounds_check", 0x11, 0x22, UNPROTECTED, "leaks", None),
        ("bounds_check", 0x11, 0x22, HOLD, "hidden", (CODE + 0x18, "its access")),
        ("bounds_check", 0x11, 0x22, DELAY, "hidden", (CODE + 0x0c, "its load of these bytes")),
        ("fault_shadow", 0x11, 0x22, UNPROTECTED, "differs", None),
        ("store_bypass", 0x11, 0x22, CORE, "vacuous", None),
        ("store_bypass", 0x11, 0x22, UNPROTECTED, "leaks", None),
        ("store_bypass", 0x11, 0x22, PASSING, "hidden", (CODE + 0x14, "its load of these bytes")),
        ("store_bypass", 0x11, 0x22, HOLD, "hidden", (CODE + 0x14, "its load of these bytes")),
        ("store_bypass", 0x11, 0x22, DELAY, "vacuous", None),
        ("tainted_store", 0, 1, UNPROTECTED, "leaks", None),
        ("tainted_store", 0, 1, HOLD, "hidden", (CODE + 0x14, "its address before a load")),
        ("tainted_store", 0, 1, DELAY, "hidden", (CODE + 0x0c, "its load of these bytes")),
        ("tainted_divisor", 0x11, 0x22, UNPROTECTED, "leaks", None),
        ("tainted_divisor", 0x11, 0x22, HOLD, "hidden", (CODE + 0x10, "its time")),
        ("tainted_divisor", 0x11, 0x22, DELAY, "hidden", (CODE + 0x0c, "its load of these bytes")),
        ("target_injection", 0x11, 0x22, UNPROTECTED, "leaks", None),
        ("target_injection", 0x11, 0x22, HOLD, "hidden", (CODE + 0x14, "its target")),
        ("target_injection", 0x11, 0x22, DELAY, "hidden", (CODE + 0x0c, "its load of these bytes")),
    ]

    def test_gadgets(self):
        for name, one, two, description, word, held in self.CASES:
            with self.subTest(name=name, description=description):
                told = command("verdict", description, *(gadget_file(name, BOUND_0 + bytes([secret])) for secret in (one, two)))
                self.assertEqual(told.stderr, "")
                self.assertIn(f"\nverdict       {word}: ", told.stdout)
                self.assertEqual(told.returncode, report.STATUS[word])
                if held:
                    self.assertRegex(told.stdout, rf"\nheld          {held[0]:08x} .*: {held[1]}, ")

    def test_reasons_agree(self):
        """What this tool finds of the premises, and where the lines of the traces part, is what the simulator says."""
        for name, one, two, description, *_ in self.CASES:
            for bound in (BOUND_0, BOUND_1):
                images = [gadget_file(name, bound + bytes([secret])) for secret in (one, two)]
                case = judge.case_of(support.PROGRAM, description, *images, 1000)
                lines = [[*trace, None] for trace in (case.pair.one, case.pair.two)]
                parted = next((number for number, (a, b) in enumerate(zip(*lines), 1) if a != b), None)
                with self.subTest(name=name, description=description, bound=bound):
                    self.assertEqual(case.premises.met, case.pair.premise)
                    self.assertEqual(case.pair.unequal, parted)

    def test_fault_shadow_parts(self):
        """The first unequal event is the load behind the secret, in cycle 16: docs/traces.md, "Fault shadow"."""
        told = command("verdict", CORE, *(gadget_file("fault_shadow", data) for data in HIDES)).stdout
        self.assertIn("traces        first unequal cycle: 16\n", told)
        self.assertRegex(told, r"only A: ld:5:0001f900:m .*00010014")
        self.assertRegex(told, r"only B: ld:5:0001fa10:m .*00010014")
        self.assertRegex(told, r"first by 00010008 ")

    def test_same_image(self):
        path = support.example("bounds_check.elf")
        told = command("verdict", CORE, path, path)
        self.assertEqual(told.returncode, report.STATUS["vacuous"])
        self.assertIn("memory        equal\n", told.stdout)

    def test_budget(self):
        """A run that is cut is looked at as far as it goes, and the verdict says how far."""
        path = support.example("bounds_check.elf")
        told = command("verdict", CORE, path, path, "--cycles", "12")
        self.assertIn("traces        equal in the first 12 cycles\n", told.stdout)
        self.assertIn("\nverdict       vacuous, in the first 12 cycles, of runs that go on: the traces are equal, ", told.stdout)
        self.assertEqual(told.returncode, statuses.CUT)

    def test_refusals(self):
        image, nothing = support.example("bounds_check.elf"), support.example("nothing.elf")
        for words, note in [((image, CORE, image), "status 4, description K1"), ((CORE, image, nothing), "status 6, read image"),
                            ((CORE, CORE, image), "status 5, image E2"), ((CORE, image, image, "--cycles", "0"), "--cycles: `0` is no number from 1 to 4294967295"),
                            ((CORE, image, image, "--program", "/nowhere"), "no simulator")]:
            told = command("verdict", *words)
            self.assertEqual((told.returncode, told.stdout), (2, ""), words)
            self.assertIn(note, told.stderr)


class OtherPrograms(unittest.TestCase):
    """What isn't the simulator is told so in one line; an interrupt has a status of its own."""

    def stand_in(self, text):
        path = support.file_of("stand_in", text.encode())
        os.chmod(path, 0o755)
        return path

    def words(self, text):
        image = support.example("bounds_check.elf")
        return CORE, image, image, "--program", self.stand_in(text)

    def test_refusals(self):
        answers = "#!/bin/sh\n[ $1 = pair ] && printf 'premise yes\\nequal\\nretired 5 cycles 21\\n'\n"
        for text, note in [("#!/bin/sh\necho hello\n", "doesn't answer `pair`"), ("#!/bin/sh\nprintf '\\377\\0'\n", "doesn't answer `pair`"),
                           ("#!/bin/sh\n", "doesn't answer `pair`"), (answers + "exit 0\n", "writes no trace"), ("", "stand_in"),
                           (answers + "[ $1 = trace ] && printf '1 \\377\\nend exit 0 retired 1 cycles 1\\n'\nexit 0\n", "no event")]:
            with self.subTest(note=note):
                told = command("verdict", *self.words(text))
                self.assertEqual((told.returncode, told.stdout, told.stderr.count("\n")), (2, "", 1), told.stderr)
                self.assertIn(note, told.stderr)

    @unittest.skipIf(support.NO_IMAGES, support.NO_IMAGES)
    def test_interrupt(self):
        mark = os.path.join(support.FOLDER.name, "begun")
        words = self.words(f"#!/bin/sh\ntouch {mark}\nexec sleep 60\n")
        child = subprocess.Popen([sys.executable, support.TOOL, "verdict", *words], stderr=subprocess.PIPE, text=True,
                                 start_new_session=True)
        while not os.path.exists(mark) and child.poll() is None:
            time.sleep(0.05)
        os.killpg(child.pid, signal.SIGINT)
        _, note = child.communicate(timeout=20)
        self.assertEqual((child.returncode, note), (130, "wadrelwy verdict: interrupted\n"))


class PathCommand(unittest.TestCase):
    def test_log(self):
        told = command("path", "log", support.example("bounds_check.elf"), "--desc", CORE).stdout.splitlines()
        self.assertEqual(len(told), 6)
        self.assertRegex(told[0], r"^00010000 \(00012283\) x5  00000000 load  0001fff0 4  (lw|load) .* _start$")
        self.assertRegex(told[3], r"^0001001c \(05d00893\) x17 0000005d ")
        self.assertEqual(told[5], "end exit 0 retired 5")

    def test_loads(self):
        told = command("path", "loads", support.example("fault_shadow.elf"), "--desc", CORE, "--model", "spectre").stdout
        self.assertRegex(told, r"(?m)^0001fff8 .*first at 00010008 <_start\+0x8>$")
        for steps, note in (("2", "wadrelwy path: the run goes on behind these 2 steps; --steps N looks further\n"), ("1000", "")):
            told = command("path", "loads", support.example("fault_shadow.elf"), "--desc", CORE, "--model", "spectre", "--steps", steps)
            self.assertEqual((told.returncode, told.stderr), (0, note))

    def test_refusal(self):
        told = command("path", "log", "/nowhere")
        self.assertEqual((told.returncode, told.stderr), (2, "wadrelwy path: /nowhere: No such file or directory\n"))


if __name__ == "__main__":
    unittest.main()
