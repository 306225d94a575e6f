"""The command: its statuses, and what it tells of wrong words."""
import gzip
import os
import signal
import subprocess
import sys
import unittest

import support
from wadrelwy.view import places



def view(*words, text=None):
    return support.answer(subprocess.run([sys.executable, support.TOOL, "view", *words], capture_output=True, text=True, input=text, timeout=60))


class Command(unittest.TestCase):
    @classmethod
    def setUpClass(cls):
        cls.text = "".join(support.worked_trace("Bounds check bypass"))
        cls.trace = support.file_of("bounds.trace", cls.text.encode())
        cls.other = support.file_of("other.trace", cls.text.replace("0001fff0", "0001ffe0").encode())
        cls.files = ["-e", support.example("bounds_check.elf"), "-D", support.example("core.toml")]

    def test_each_subcommand_writes(self):
        for what in ("stats", "why", "list", "konata", "o3", "svg", "html"):
            with self.subTest(what=what):
                answer = view(what, self.trace, *self.files)
                self.assertEqual((answer.returncode, answer.stderr), (0, ""))
                self.assertGreater(len(answer.stdout), 400)

    def test_a_page_says_what_it_is_of(self):
        """Of each panel the image, the description and the model; where it doesn't reach to the end, how the run ended, also of a packed trace."""
        page = view("html", self.trace, self.other, *self.files, "-D", support.example("core_hold.toml")).stdout
        self.assertIn("<p>image bounds_check.elf, description core.toml, model spectre</p>", page)
        self.assertIn("<p>image bounds_check.elf, description core_hold.toml, model spectre, defence hold</p>", page)
        self.assertNotIn("the whole run", page)
        delayed = view("html", self.trace, *self.files[:2], "-D", support.example("core_delay.toml")).stdout
        self.assertIn("<p>image bounds_check.elf, description core_delay.toml, model spectre, defence delay</p>", delayed)
        self.assertIn('<a class="go" href="#3">first unequal cycle: 3', page)
        packed = support.file_of("facts.gz", gzip.compress(self.text.encode()))
        for trace in (self.trace, packed):
            page = view("html", trace, *self.files, "--to", "8").stdout
            self.assertIn("<p>the whole run: end exit 0 retired 5 cycles 21; --from 9 shows what follows</p><p>shown up to cycle 8", page)
        cut = support.file_of("facts.trace", self.text.rsplit("end ", 1)[0].encode())
        self.assertNotIn("the whole run", view("html", cut, *self.files, "--to", "8").stdout)

    def test_a_function_of_which_nothing_is_there(self):
        for what in ("stats", "annotate", "list", "why"):
            with self.subTest(what=what):
                refused = self.refused(what, self.trace, *self.files, "--function", "verify")
                self.assertIn("no instruction of <verify> was fetched; the image has no such symbol", refused)
        for words in (["list"], ["list", "--to", "8"], ["why", "--summary"]):
            answer = view(*words, self.trace, *self.files, "--function", "_start")
            self.assertEqual((answer.returncode, answer.stderr), (0, ""), words)
            self.assertRegex(answer.stdout, "00010000 (lw|load) " if words[0] == "list" else "operand", "a kind where there is no objdump")
        self.assertIn("in these cycles", self.refused("list", self.trace, *self.files, "--function", "verify", "--from", "2"))
        self.assertIn("behind the last cycle", self.refused("list", self.trace, *self.files, "--function", "verify", "--from", "900"))
        named = type("Named", (), {"symbols": [(0, 4, "verify.constprop.0"), (8, 4, "main")], "shown": {}})
        self.assertIn("the image has no such symbol, but verify.constprop.0", places.nothing_of(named, "verify"))
        self.assertEqual(places.nothing_of(named, "main"), "no instruction of <main> was fetched")

    def test_up_to_the_cycle_before_the_last(self):
        """The last line has been read by then, and isn't of these cycles."""
        told = view("stats", self.trace, *self.files, "--to", "20").stdout
        self.assertRegex(told, r"(?m)^end +not read so far$")
        self.assertRegex(told, r"(?m)^unexplained +0$")

    def test_diff_tells_by_its_status(self):
        self.assertEqual(view("diff", self.trace, self.trace, *self.files).returncode, 0)
        answer = view("diff", self.trace, self.other, *self.files)
        self.assertEqual((answer.returncode, answer.stdout.split("\n")[0]), (1, "first unequal cycle: 3"))

    def test_why_tells_by_its_status(self):
        wrong = support.file_of("wrong.trace", self.text.replace(" alu:7", "").encode())
        self.assertEqual(view("why", wrong, *self.files).returncode, 1)

    def test_standard_input_and_a_file_to_write(self):
        out = os.path.join(support.FOLDER.name, "out.txt")
        answer = view("stats", "-", *self.files, "-o", out, text=self.text)
        self.assertEqual((answer.returncode, answer.stdout), (0, ""))
        with open(out, encoding="utf-8") as file:
            self.assertIn("end exit 0 retired 5 cycles 21", file.read())

    def test_what_is_wrong_is_told_in_one_line(self):
        for words in (["stats", "/nowhere", *self.files], ["stats", self.trace, "-e", "/nowhere", *self.files[2:]],
                      ["stats", self.trace, *self.files[:2], "-D", "/nowhere"], ["svg", *[self.trace] * 3, *self.files],
                      ["stats", self.files[3], *self.files]):
            answer = view(*words)
            self.assertEqual((answer.returncode, answer.stdout, answer.stderr.count("\n")), (2, "", 1), words)

    def test_an_image_or_description_too_many(self):
        self.assertIn("-e is given 2 times", self.refused("list", self.trace, *self.files, *self.files[:2]))
        self.assertIn("-D is given 2 times", self.refused("stack", *[self.trace] * 3, *self.files, *self.files[2:]))
        self.assertEqual(view("stats", self.trace, self.other, *self.files, *self.files[2:]).returncode, 0)

    def refused(self, *words, text=None):
        """What is told of wrong input: one line, and the status of errors."""
        answer = view(*words, text=text)
        self.assertEqual((answer.returncode, answer.stdout, answer.stderr.count("\n")), (2, "", 1), (words, answer.stderr))
        return answer.stderr

    def test_what_is_no_trace(self):
        packed = gzip.compress(self.text.encode())
        for name, data, word in [("random", bytes(range(128, 256)), "byte 80"), ("byte", self.text.encode()[:90] + b"\xff\n", "byte ff"),
                                 ("false.gz", self.text.encode(), "gzip"), ("damaged.gz", packed[:40] + bytes(60), "gzip"),
                                 ("empty", b"", "empty"), ("empty.gz", gzip.compress(b""), "empty")]:
            self.assertIn(word, self.refused("stats", support.file_of(name, data), *self.files))

    def test_a_packed_trace_that_is_cut_is_read_up_to_there(self):
        path = support.file_of("whole.gz", gzip.compress(self.text.encode()))
        self.assertIn("end exit 0 retired 5 cycles 21", view("stats", path, *self.files).stdout)
        for cut in (gzip.compress(self.text.encode())[:-12], gzip.compress(self.text.encode(), 0)[:500]):
            self.assertIn("none: the trace is cut", view("stats", support.file_of("cut.gz", cut), *self.files).stdout)

    def test_a_trace_that_is_cut_is_told(self):
        """By one line on standard error, where it was read so far; two that are equal as far as they go aren't told to be equal."""
        cut = support.file_of("torn.trace", "".join(support.worked_trace("Bounds check bypass")[:9]).encode())
        told = f"wadrelwy view: {cut}: the trace is cut: it has no last line, and ends with cycle 9\n"
        for what in ("stats", "stack", "annotate", "why", "list", "konata", "o3", "index"):
            with self.subTest(what=what):
                self.assertEqual(view(what, cut, *self.files).stderr, told)
        os.remove(cut + ".index")
        self.assertEqual(view("stats", cut, self.trace, *self.files).stderr, told)
        for last, said in (("8", ""), ("15", told)):
            self.assertEqual(view("stack", cut, *self.files, "--to", last).stderr, said)
        self.assertIn("both traces are cut, in cycle 9, and equal up to there", self.refused("diff", cut, cut, *self.files))
        self.assertEqual(view("diff", cut, self.trace, *self.files).returncode, 1)

    def test_where_nothing_can_be_written(self):
        for path in ("/nowhere/x.html", support.FOLDER.name, "/dev/full"):
            self.assertIn(path, self.refused("html", self.trace, *self.files, "-o", path))

    def test_cycles_that_are_none(self):
        for what in ("why", "list", "konata", "o3", "svg", "html", "stats", "stack", "annotate"):
            self.assertIn("behind the last cycle", self.refused(what, self.trace, *self.files, "--from", "22"))
        self.assertIn("behind --to", self.refused("list", self.trace, *self.files, "--from", "9", "--to", "8"))
        for first, status in (("21", 0), ("0", 2), ("x", 2)):
            self.assertEqual(view("list", self.trace, *self.files, "--from", first).returncode, status)

    @unittest.skipIf(support.NO_IMAGES, support.NO_IMAGES)
    def test_an_interrupt(self):
        path = os.path.join(support.FOLDER.name, "fifo")
        os.mkfifo(path)
        ran = subprocess.Popen([sys.executable, support.TOOL, "view", "stats", path, *self.files], stdout=subprocess.PIPE, stderr=subprocess.PIPE, text=True)
        with open(path, "w", encoding="ascii") as fifo:
            fifo.write(self.text[:60])
            fifo.flush()
            ran.send_signal(signal.SIGINT)
            out, err = ran.communicate(timeout=60)
        self.assertEqual((ran.returncode, out, err), (130, "", "wadrelwy view: interrupted\n"))

    def test_help(self):
        for words in (["--help"], ["svg", "--help"]):
            self.assertIn("usage: wadrelwy view", view(*words).stdout)

    def test_no_progress_where_there_is_no_terminal(self):
        self.assertEqual(view("stats", self.trace, *self.files).stderr, "")
