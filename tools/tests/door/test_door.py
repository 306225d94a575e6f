"""The one door: what it lists, the help and the refusals of each command, where the built programs are looked for, and the statuses."""
import ast
import hashlib
import itertools
import os
import re
import subprocess
import sys
import tempfile
import unittest
from unittest import mock

import support
from wadrelwy import built_programs, statuses
from wadrelwy.__main__ import COMMANDS, main
from wadrelwy.commands.view import SUBCOMMANDS
from wadrelwy.verdict import answered, report, secrecy, touched
from wadrelwy.view.trace import End

# the developers' commands, which have a help of their own
DEVELOPERS = [os.path.join(support.ROOT, "tools", *name.split("/")) for name in (
    "compile", "pictures", "test", "documents/believed", "documents/calls", "documents/check", "documents/pipeline", "documents/premises",
    "documents/wrap", "evaluate/write", "generate/generate", "hostile/run", "refuse-memory/run", "speed/measure", "speed/table",
    "unaligned/run")]
TWO_FILES = [support.example("core.toml"), support.example("bounds_check.elf")]
WRONG = [[], ["nothing"], ["run"], ["run", "a"], ["run", "a", "b", "c"], ["run", *TWO_FILES, "--cycles", "0"],
         ["run", *TWO_FILES, "--cycles", "4294967296"], ["run", *TWO_FILES, "--cycles", "x"], ["isa", TWO_FILES[1], "--steps", "-1"],
         ["bench", TWO_FILES[0], "--seed", "x", "--blocks", "1"], ["stats", "x"],
         ["stats", *TWO_FILES, "--every", "0"], ["stats", *TWO_FILES, "--svg"], ["stats", *TWO_FILES, "--json", "--svg"], ["secrets", *TWO_FILES], ["verdict", *TWO_FILES],
         ["verdict", *TWO_FILES, "--cycles", "x"], ["certify"], ["certify", "f", "--levels", "9"], ["certify", "f", "--levels", "12"], ["draw", "/nowhere/at/all"],
         ["draw", "f", "--draws", "0"], ["defences", "one"], ["defences", "--set", "x"], ["sweep", "/nowhere/at/all"],
         ["sample"], ["sample", "x"], ["sample", "x", "y"], ["sample", "-o", "/nowhere/at/all"], ["sample", "x", "y", "--jobs", "0"],
         ["sweep", "f", "--jobs", "0"], ["sweep", "f", "--programs", "x"], ["view"], ["view", "list"], ["view", "list", "x"],
         ["view", "nothing"], ["path", "log"], ["path", "log", "/nowhere/at/all"], ["path", "log", support.ROOT], ["-x"],
         ["secrets", *TWO_FILES, "--secret", "1:1", "--public-stream", "3"], ["verdict", *TWO_FILES, "--secret", "1:1", "--public-stream", "0"],
         ["certify", "f", "--public-stream", "2", "--public-stream", "2"], ["draw", "f", "--public-stream", "1,2"]]


def run(*words, program=support.TOOL, **more):
    return subprocess.run([sys.executable, program, *words], capture_output=True, text=True, timeout=60, **more)


class Help(unittest.TestCase):
    def test_all_are_listed_in_a_line(self):
        told = run("--help")
        self.assertEqual((told.returncode, told.stderr), (0, ""))
        for name in COMMANDS:
            self.assertEqual(len(re.findall(rf"(?m)^  {name} +\S", told.stdout)), 1, name)

    @unittest.skipIf(support.NO_IMAGES, support.NO_IMAGES)
    def test_each_command_has_one(self):
        for words in [[name] for name in COMMANDS] + [["view", name] for name in SUBCOMMANDS]:
            with self.subTest(words=words):
                told = run(*words, "--help")
                self.assertEqual((told.returncode, told.stderr), (0, ""))
                self.assertTrue(told.stdout.startswith(f"usage: wadrelwy {' '.join(words)} "), told.stdout)

    def test_by_a_word(self):
        self.assertEqual(run("help").stdout, run("--help").stdout)
        self.assertEqual(run("help", "sweep").stdout, run("sweep", "--help").stdout)

    def test_what_to_cite(self):
        """The tools, and each built program by its sha256, or that it isn't there."""
        with tempfile.NamedTemporaryFile() as file:
            file.write(b"a program")
            file.flush()
            os.chmod(file.name, 0o755)
            told = run("--version", env=os.environ | {"STT_CLI": file.name, "STT_SECRETS": "/nowhere", "STT_STATS": "/nowhere"})
        self.assertEqual((told.returncode, told.stderr), (0, ""))
        first, *rest = told.stdout.splitlines()
        self.assertRegex(first, r"^wadrelwy kit rattle-.*, commit \w+")
        self.assertEqual(rest, [f"stt_cli {file.name} sha256 {hashlib.sha256(b'a program').hexdigest()}", "stt_secrets isn't there",
                                "stt_stats isn't there"])

    def test_a_word_that_is_none(self):
        """What is nearest is told, be it a command or one of `view`'s."""
        for word, near in (("verdct", "`wadrelwy verdict` is the nearest"), ("stack", "`wadrelwy view stack` is the nearest"), ("zzzz", "no command zzzz; `wadrelwy --help`")):
            told = run(word)
            self.assertEqual((told.returncode, told.stdout, told.stderr.count("\n")), (2, "", 1))
            self.assertIn(near, told.stderr)

    def test_a_word_that_is_missing(self):
        """Where one is missing the order of all is told: an image alone is taken for the description."""
        told = run("run", TWO_FILES[1])
        self.assertEqual((told.returncode, told.stdout), (2, ""))
        self.assertIn("required: IMAGE of `wadrelwy run DESCRIPTION IMAGE`; `wadrelwy run --help`", told.stderr)

    def test_each_of_the_developers_has_one(self):
        for program in DEVELOPERS:
            with self.subTest(program=program):
                told = run("--help", program=program)
                self.assertEqual((told.returncode, told.stderr), (0, ""))
                self.assertTrue(told.stdout.startswith("usage: "), told.stdout)

    def test_without_the_package_that_reads_images(self):
        """The help is there; an image is refused in one line, which says what to install."""
        with tempfile.TemporaryDirectory() as folder:
            os.mkdir(os.path.join(folder, "elftools"))
            with open(os.path.join(folder, "elftools", "__init__.py"), "w", encoding="utf-8") as file:
                file.write("raise ModuleNotFoundError(name='elftools')\n")
            with_none = {"env": os.environ | {"PYTHONPATH": folder}}
            for name in COMMANDS:
                self.assertEqual(run(name, "--help", **with_none).returncode, 0, name)
            told = run("path", "log", TWO_FILES[1], **with_none)
        self.assertEqual((told.returncode, told.stdout, told.stderr.count("\n")), (2, "", 1))
        self.assertIn("apt-get install python3-pyelftools", told.stderr)


class Refusals(unittest.TestCase):
    def test_wrong_words(self):
        """One line, status 2, nothing on standard output, and no traceback."""
        for words in WRONG:
            with self.subTest(words=words):
                told = run(*words)
                self.assertEqual((told.returncode, told.stdout, told.stderr.count("\n")), (2, "", 1), told.stderr)
                self.assertTrue(told.stderr.startswith("wadrelwy"), told.stderr)

    def test_an_error_of_the_tool_is_one_line(self):
        with mock.patch("wadrelwy.__main__.done", side_effect=TypeError("a\nb")), mock.patch("sys.stderr") as screen:
            self.assertEqual(main(["run"]), statuses.REFUSED)
        told = "".join(call.args[0] for call in screen.write.call_args_list)
        self.assertRegex(told, r"^wadrelwy run: an error of the tool itself, TypeError: a b, in .*, line \d+; please report it, .*\n$")

    @unittest.skipIf(support.NO_IMAGES, support.NO_IMAGES)
    def test_a_text_that_cant_be_written(self):
        for words in (["--help"], ["verdict", "--help"], ["path", "log", TWO_FILES[1]]):
            with open("/dev/full", "w", encoding="ascii") as full:
                told = subprocess.run([sys.executable, support.TOOL, *words], stdout=full, stderr=subprocess.PIPE, text=True, timeout=60)
            self.assertEqual((told.returncode, told.stderr.count("\n")), (statuses.UNWRITTEN, 1), told.stderr)
            self.assertIn("standard output: No space left on device", told.stderr)

    @unittest.skipIf(support.NO_IMAGES, support.NO_IMAGES)
    def test_a_reader_that_goes_away(self):
        reading, writing = os.pipe()
        os.close(reading)
        with os.fdopen(writing, "w") as gone:
            told = subprocess.run([sys.executable, support.TOOL, "path", "log", TWO_FILES[1]], stdout=gone, stderr=subprocess.PIPE, text=True,
                                  timeout=60)
        self.assertEqual((told.returncode, told.stderr), (statuses.UNWRITTEN, ""))


class Programs(unittest.TestCase):
    """--program, then the variable, then beside the other's, then the one that is built here."""

    def setUp(self):
        folder = tempfile.TemporaryDirectory()
        self.addCleanup(folder.cleanup)
        self.folder = folder.name
        self.here = self.made("here/crates/stt_cli/out/stt_cli")
        self.made("here/crates/stt_secrets/out/stt_secrets")
        patched = mock.patch.object(built_programs, "ROOT", os.path.join(self.folder, "here"))
        patched.start()
        self.addCleanup(patched.stop)

    def made(self, name):
        path = os.path.join(self.folder, name)
        os.makedirs(os.path.dirname(path), exist_ok=True)
        with open(path, "w", encoding="ascii") as file:
            file.write("#!/bin/sh\n")
        os.chmod(path, 0o755)
        return path

    def found(self, name, named=None, **variables):
        with mock.patch.dict(os.environ, variables):
            for variable in {"STT_CLI", "STT_SECRETS", "STT_STATS"} - set(variables):
                os.environ.pop(variable, None)
            return built_programs.program(name, named)

    def test_in_turn(self):
        named, by_variable = self.made("named/other"), self.made("there/stt_cli")
        self.assertEqual(self.found("stt_cli", named, STT_CLI=by_variable), named)
        self.assertEqual(self.found("stt_cli", STT_CLI=by_variable), by_variable)
        self.assertEqual(self.found("stt_cli"), self.here)

    def test_beside_the_other(self):
        for place in ("there/{}", "tree/crates/{0}/out/{0}"):
            made = {name: self.made(place.format(name)) for name in built_programs.PROGRAMS}
            for other, wanted in itertools.permutations(made, 2):
                self.assertEqual(self.found(wanted, **{other.upper(): made[other]}), made[wanted])

    def test_what_counts_is_of_the_simulators_build(self):
        """Where the words name a simulator, one beside it, or the one that is named, and no other."""
        here, alone = self.made("here/crates/stt_stats/out/stt_stats"), self.made("alone/stt_cli")
        both, beside = self.made("both/stt_cli"), self.made("both/stt_stats")
        with mock.patch.dict(os.environ):
            for variable in ("STT_CLI", "STT_SECRETS", "STT_STATS"):
                os.environ.pop(variable, None)
            self.assertEqual(built_programs.counting(), here)
            self.assertIsNone(built_programs.counting(alone))
            self.assertEqual(built_programs.counting(both), beside)
            self.assertEqual(built_programs.counting(alone, beside), beside)
            os.environ["STT_CLI"] = both
            self.assertEqual(built_programs.counting(), beside)
            os.environ["STT_CLI"] = alone
            self.assertIsNone(built_programs.counting())
            os.environ["STT_STATS"] = here
            self.assertEqual(built_programs.counting(both), here)

    def test_environment_with_large_pages(self):
        """It is that of the command with what glibc is told, unless that is told something else."""
        with mock.patch.dict(os.environ, {"ELSE": "1"}):
            os.environ.pop("GLIBC_TUNABLES", None)
            self.assertEqual(built_programs.with_large_pages(), os.environ | built_programs.LARGE_PAGES)
            os.environ["GLIBC_TUNABLES"] = "glibc.malloc.check=0"
            self.assertEqual(built_programs.with_large_pages(), os.environ)

    def test_one_that_is_named_and_not_there_is_no_other(self):
        self.assertIsNone(self.found("stt_cli", "/nowhere/at/all"))
        self.assertIsNone(self.found("stt_cli", STT_CLI="/nowhere/at/all"))
        with self.assertRaisesRegex(Exception, r"^no program stt_cli at /nowhere/at/all: build it .* by --program or STT_CLI$"):
            built_programs.needed("stt_cli", "/nowhere/at/all")


class Statuses(unittest.TestCase):
    def test_worst(self):
        self.assertEqual(statuses.worst([]), 0)
        self.assertEqual(statuses.worst([statuses.HOLDS, statuses.PUBLISHED, statuses.CUT, statuses.SAME]), statuses.CUT)
        self.assertEqual(statuses.worst([statuses.SHOWS, statuses.REFUTED]), statuses.REFUTED)

    def test_the_documents_table(self):
        """docs/using.md has a row for each number of the module, and for no other."""
        with open(os.path.join(support.ROOT, "docs", "using.md"), encoding="utf-8") as file:
            section = file.read().split("\n## Statuses of the tools\n")[1].split("\n## ")[0]
        rows = {int(number) for row in re.findall(r"(?m)^\| (\d[^|]*) \|", section) for number in re.findall(r"\d+", row)}
        self.assertEqual(rows, {value for name, value in vars(statuses).items() if name.isupper() and isinstance(value, int)})


class Table(unittest.TestCase):
    """Each row of docs/using.md, "Statuses of the tools", is what the commands do: their words, their statuses, which is the worst."""

    # the words of answers about secrets: (what shows, how the run ended, what is published, how many bytes are loaded)
    ENDS = ("exit 0", "exit 1", "budget", "trap 5 00010004")
    # of the built programs, which the commands pass on (docs/formats.md, "Statuses"); and of signals
    PASSED = {"run": {1, 3, 4, 5, 6, 8, 128}, "trace": {1, 3, 4, 5, 6, 8, 128}, "isa": {1, 3, 4, 5, 6, 8, 128}, "bench": {1, 3, 4, 6, 8, 128},
              "pair": {1, 4, 5, 6, 8, 128}, "secrets": {1, 3, 4, 5, 6, 8, 128},
              "stats": {1, 3, 4, 5, 6, 8, 128}}

    def setUp(self):
        with open(os.path.join(support.ROOT, "docs", "using.md"), encoding="utf-8") as file:
            section = file.read().split("\n## Statuses of the tools\n")[1].split("\n## ")[0]
        cells = [[cell.strip() for cell in line.strip("|").split(" | ")] for line in section.splitlines() if re.match(r"\| \d", line)]
        self.rows = {int(number): (answers, commands, worst) for number, answers, commands, worst in cells}

    def of(self, command):
        """The statuses whose rows name a command."""
        return {number for number, (_, commands, _) in self.rows.items() if f"`{command}`" in commands}

    def answers(self):
        """Each answer about secret bytes: its word, with N for numbers, and its status."""
        for shown in (secrecy.Shown(15, "access", 6, 0x10018), secrecy.PathShown(12, "access", 0x10018)):
            yield answered.word(secrecy.Answer(shown, None), None), answered.status(secrecy.Answer(shown, None), None)
        # of a core; and of a run of the instruction set, which has no cycles
        for how, published, loaded, cycles in itertools.product(self.ENDS, (None, 4), (0, 1), (21, None)):
            answer = secrecy.Answer(None, End("", how, 5, cycles), published)
            found = touched.Touched(1, loaded, 0)
            yield re.sub(r"\d+", "N", answered.word(answer, found)), answered.status(answer, found)

    def test_words(self):
        told = {word: number for number, (answers, _, _) in self.rows.items() for word in re.findall("`([^`]+)`", answers)}
        for word, status in report.STATUS.items():
            self.assertEqual(told.get(word), status, word)
        plain = {"certified", "certified for what is published", "certified in the first N cycles", "certified, exit N",
                 "certified, to a trap in cycle N", "vacuous", "exposed", "certified on every core that delays",
                 "certified on every core that delays, exit N", "nothing shows, to a trap in step N", "nothing shows in the first N steps"}
        found = {word: status for word, status in self.answers() if word in plain}
        self.assertEqual(set(found), plain)
        for word, status in found.items():
            self.assertEqual(told.get(word), status, word)

    def test_commands(self):
        """Those of the answers about secrets; of tables; and of the built programs."""
        secret = {status for _, status in self.answers()} - {statuses.HOLDS}
        self.assertEqual(self.of("certify"), secret | {statuses.REFUTED})
        self.assertEqual(self.of("verdict"), secret | set(report.STATUS.values()) - {statuses.HOLDS})
        for command in ("draw", "defences", "sweep"):
            with open(os.path.join(support.ROOT, "tools", "src", "wadrelwy", "commands", f"{command}.py"), encoding="utf-8") as file:
                used = {getattr(statuses, node.attr) for node in ast.walk(ast.parse(file.read()))
                        if isinstance(node, ast.Attribute) and isinstance(node.value, ast.Name) and node.value.id == "statuses" and node.attr.isupper()}
            self.assertEqual(self.of(command), used - {statuses.HOLDS}, command)
        for command, passed in self.PASSED.items():
            self.assertEqual(self.of(command), passed, command)
        self.assertEqual({number for number, (_, commands, _) in self.rows.items() if commands == "all"}, {0, 2, 7, 130})
        named = {word.split()[0] for _, commands, _ in self.rows.values() for word in re.findall("`([^`]+)`", commands)}
        self.assertLessEqual(named, set(COMMANDS))

    def test_worst(self):
        order = {number: int(worst) for number, (_, _, worst) in self.rows.items() if worst}
        self.assertEqual(sorted(order, key=order.get), list(statuses.WORST_FIRST))
        self.assertEqual(sorted(order.values()), list(range(1, len(order) + 1)))


if __name__ == "__main__":
    unittest.main()
