"""The built programs, once for each status and each way to it: the status, standard output and standard error (docs/formats.md,
"Statuses", "Notes", "The program stt_secrets" and "The program stt_stats"). No proof says which streams and words `main` hands on."""
import os
import resource
import shutil
import signal
import subprocess
import sys
import tempfile
import unittest

ROOT = os.path.dirname(os.path.dirname(os.path.dirname(os.path.dirname(os.path.abspath(__file__)))))
from wadrelwy import built_programs
from generate.generated import image
from wadrelwy.riscv.encoding import addi, jal, lw

PROGRAM, SECRETS = built_programs.simulator(), built_programs.secrets()
STATS = built_programs.program("stt_stats", os.environ.get("STT_STATS") or os.path.join(ROOT, "crates", "stt_stats", "out", "stt_stats"))
EXIT = [addi(17, 0, 93), 0x00000073]
TRAP = [lw(5, 1, 0)]
LOOP = [jal(0, 0)]
DESCRIPTION_MAX, IMAGE_MAX = 65536, 32 * 1024 * 1024


def example(name):
    return os.path.join(ROOT, "examples", name)


def bytes_of(path):
    with open(path, "rb") as file:
        return file.read()


class Ran(unittest.TestCase):
    """A program, and files for it."""
    PROGRAM = None

    def setUp(self):
        folder = tempfile.TemporaryDirectory()
        self.addCleanup(folder.cleanup)
        self.folder = folder.name
        self.core = example("core.toml")
        self.exit = self.file("exit.elf", image(EXIT))
        self.trap = self.file("trap.elf", image(TRAP))
        self.loop = self.file("loop.elf", image(LOOP))

    def file(self, name, data, length=None):
        """A file of these bytes, with zero bytes behind them up to a length."""
        path = os.path.join(self.folder, name)
        with open(path, "wb") as file:
            file.write(data)
            if length is not None:
                file.truncate(length)
        return path

    def ran(self, *words, **more):
        done = subprocess.run([self.PROGRAM, *words], stdout=subprocess.PIPE, stderr=subprocess.PIPE, timeout=60, check=False, **more)
        return done.returncode, done.stdout, done.stderr

    def behind(self, length):
        """The exit's image under a name of so many bytes: in folders within folders, as a name's parts may have 255 at most."""
        path = self.folder
        while length - len(path) > 257:
            path = os.path.join(path, "f" * min(255, length - len(path) - 3))
        os.makedirs(path, exist_ok=True)
        path = os.path.join(path, "n" * (length - len(path) - 1))
        shutil.copy(self.exit, path)
        return path

    def refused(self, status, note, *words):
        """A refusal writes its line to standard error, and nothing to standard output."""
        self.assertEqual(self.ran(*words), (status, b"", note), words)

    def written(self, status, last_line, *words):
        """A text goes whole to standard output, and nothing to standard error."""
        got, out, note = self.ran(*words)
        self.assertEqual((got, out.splitlines()[-1:], note), (status, [last_line], b""), words)

    def cut(self, note, *words):
        """What can't be written is told on standard error."""
        with open("/dev/full", "wb") as full:
            done = subprocess.run([self.PROGRAM, *words], stdout=full, stderr=subprocess.PIPE, timeout=60, check=False)
        self.assertEqual((done.returncode, done.stderr), (7, note))

    def untold(self, status, *words):
        """A note that can't be written changes no status."""
        with open("/dev/full", "wb") as full:
            done = subprocess.run([self.PROGRAM, *words], stdout=subprocess.PIPE, stderr=full, timeout=60, check=False)
        self.assertEqual((done.returncode, done.stdout), (status, b""))

    def starved(self, *words):
        """Under a rising limit of memory the program can't start, then refuses with 8, then writes its text."""
        ways = []
        for size in [2**k for k in range(20, 40)]:
            def limit():
                resource.setrlimit(resource.RLIMIT_AS, (size, size))
            try:
                ran = self.ran(*words, preexec_fn=limit)
            except subprocess.SubprocessError:
                continue
            ways.append((ran[0], ran[1] == b"", ran[2]))
            if ran[0] == 0:
                break
        started = [way for way in ways if way[0] >= 0 and way[0] != 127]
        self.assertEqual(started[-1], (0, False, b""))
        self.assertLessEqual(set(started[:-1]), {(8, True, b"memory\n")})


@unittest.skipUnless(PROGRAM, "the program isn't built (crates/stt_cli/out/stt_cli, or STT_CLI)")
class Statuses(Ran):
    PROGRAM = PROGRAM

    def test_names(self):
        """A name may be as long as the host takes, and have any characters; a longer one is no file."""
        names = [self.behind(length) for length in (256, 257, 1000, 4095)] + [self.file(name, image(EXIT)) for name in ("-", "a b", "\u00e9", "--x")]
        for path in names:
            with self.subTest(length=len(path)):
                self.written(0, b"end exit 0 retired 2", "isa", path, "--steps", "9")
        self.refused(6, b"read image\n", "isa", "n" * 4096, "--steps", "9")

    def test_texts(self):
        self.written(0, b"end exit 0 retired 2", "isa", self.exit, "--steps", "9")
        self.written(1, b"end trap 4 00010000 retired 0", "isa", self.trap, "--steps", "9")
        self.written(3, b"end budget retired 9", "isa", self.loop, "--steps", "9")
        for command in ("run", "trace"):
            with self.subTest(command=command):
                for status, file, end in ((0, self.exit, b"end exit 0 retired 2 cycles "),
                                          (1, self.trap, b"end trap 4 00010000 retired 0 cycles ")):
                    got, out, note = self.ran(command, self.core, file, "--cycles", "100")
                    self.assertEqual((got, out.splitlines()[-1][:len(end)], note), (status, end, b""))
                got, out, note = self.ran(command, self.core, self.loop, "--cycles", "9")
                self.assertEqual((got, out.splitlines()[-1].split()[:2], note), (3, [b"end", b"budget"], b""))

    def test_two_images(self):
        one, other = example("bounds_check.elf"), example("bounds_check_other.elf")
        for name, status, line in (("core.toml", 0, b"equal"), ("core_unprotected.toml", 1, b"unequal 15")):
            with self.subTest(description=name):
                got, out, note = self.ran("pair", example(name), one, other, "--cycles", "100")
                self.assertEqual((got, out.splitlines()[1:2], note), (status, [line], b""))

    def test_words(self):
        texts = [], ["walk"], ["isa"], ["--help"], ["isa", self.exit, "--steps", "0"]
        no_texts = [b"\xff"], ["isa", b"\xff\xfe", "--steps", "9"], ["isa", self.exit, "--steps", b"\xff"]
        for words in (*texts, *no_texts):
            self.refused(2, b"words\n", *words)

    def test_descriptions(self):
        known = bytes_of(self.core)
        for name, data, note in (("empty", b"", b"K3 core.fetch_width"), ("bytes", b"\xff", b"K1"), ("text", b"version", b"K1")):
            self.refused(4, b"description " + note + b"\n", "run", self.file(name, data), self.exit, "--cycles", "9")
        longest = known + b"#" * (DESCRIPTION_MAX - len(known))
        self.written(0, b"end exit 0 retired 2", "isa", self.exit, "--steps", "9", "--desc", self.file("longest", longest))
        self.refused(4, b"description too long\n", "run", self.file("longer", longest + b"#"), self.exit, "--cycles", "9")

    def test_images(self):
        self.refused(5, b"image E1 52 0\n", "isa", self.file("none", b""), "--steps", "9")
        self.refused(5, b"image E2\n", "run", self.core, self.file("zeros", b"", 52), "--cycles", "9")
        self.refused(5, b"image2 E2\n", "pair", self.core, self.exit, self.file("zeros", b"", 52), "--cycles", "9")
        longest = self.file("longest", image(EXIT), IMAGE_MAX)
        self.written(0, b"end exit 0 retired 2", "isa", longest, "--steps", "9")
        longer = self.file("longer", image(EXIT), IMAGE_MAX + 1)
        self.refused(5, b"image too long\n", "isa", longer, "--steps", "9")
        self.refused(5, b"image2 too long\n", "pair", self.core, self.exit, longer, "--cycles", "9")

    def test_files_that_are_not_there(self):
        none = os.path.join(self.folder, "none")
        for path in (none, self.folder, ""):
            self.refused(6, b"read description\n", "run", path, self.exit, "--cycles", "9")
            self.refused(6, b"read image\n", "isa", path, "--steps", "9")
            self.refused(6, b"read image2\n", "pair", self.core, self.exit, path, "--cycles", "9")

    def test_output_that_fails(self):
        self.cut(b"write\n", "isa", self.exit, "--steps", "9")

    def test_a_note_that_fails_changes_no_status(self):
        self.untold(2, "isa")

    def test_memory(self):
        self.starved("run", self.core, self.exit, "--cycles", "100")


@unittest.skipUnless(SECRETS, "the program isn't built (crates/stt_secrets/out/stt_secrets, or STT_SECRETS)")
class SecretsStatuses(Ran):
    PROGRAM = SECRETS

    def words(self, description="core.toml", path=None, secret="0x1fff8:1", cycles="100"):
        return example(description), path or example("bounds_check.elf"), "--secret", secret, "--cycles", cycles

    def test_texts(self):
        for status, line, words in ((0, b"end exit 0 retired 5 cycles 21", self.words()),
                                    (1, b"shown 15 access 6 00010018", self.words("core_unprotected.toml")),
                                    (3, b"end budget retired 0 cycles 1", self.words(cycles="1"))):
            self.written(status, line, *words)

    def test_words(self):
        no_texts = [b"\xff"], [*self.words()[:3], b"0x1fff8:\xff", "--cycles", "100"]
        for words in ([], ["--help"], self.words(secret="7"), self.words(cycles="0"), *no_texts):
            self.refused(2, b"words\n", *words)
        self.refused(2, b"secret 0 outside\n", *self.words(secret="0:1"))

    def test_files(self):
        known = bytes_of(self.core)
        longer = self.file("longer", known + b"#" * (DESCRIPTION_MAX + 1 - len(known)))
        none = os.path.join(self.folder, "none")
        self.refused(4, b"description K1\n", *self.words(self.file("bytes", b"\xff")))
        self.refused(4, b"description too long\n", *self.words(longer))
        self.refused(5, b"image E1 52 0\n", *self.words(path=self.file("empty", b"")))
        self.refused(5, b"image too long\n", *self.words(path=self.file("long", image(EXIT), IMAGE_MAX + 1)))
        self.refused(6, b"read description\n", *self.words(none))
        self.refused(6, b"read image\n", *self.words(path=none))

    def test_output_that_fails(self):
        self.cut(b"write\n", *self.words())

    def test_a_note_that_fails_changes_no_status(self):
        self.untold(2)

    def test_memory(self):
        self.starved(*self.words())


@unittest.skipUnless(STATS, "the program isn't built (crates/stt_stats/out/stt_stats, or STT_STATS)")
class StatsStatuses(Ran):
    PROGRAM = STATS

    def words(self, description=None, path=None, cycles="100", every=None):
        return description or self.core, path or self.exit, "--cycles", cycles, *(("--every", every) if every else ())

    def test_texts(self):
        """Lines on the way change neither status nor last line."""
        for status, end, words in ((0, b"end exit 0 retired 2 cycles 5", {}), (1, b"end trap 4 00010000 retired 0 cycles 4", {"path": self.trap}),
                                   (3, b"end budget retired 12 cycles 9", {"path": self.loop, "cycles": "9"})):
            for every in (None, "1", "4", "4294967295"):
                self.written(status, end, *self.words(every=every, **words))

    def test_lines(self):
        """A line for each whole stretch, and behind them one for each of the 35 counts and of the 19 reasons of slots, and the last."""
        for every, lines in ((None, 55), ("1", 55 + 100), ("7", 55 + 14), ("100", 55 + 1), ("101", 55)):
            got, out, note = self.ran(*self.words(path=self.loop, every=every))
            self.assertEqual((got, len(out.splitlines()), out[-1:], note), (3, lines, b"\n", b""))

    def test_words(self):
        texts = [], ["--help"], ["--version"], self.words()[:2], [*self.words(), "more"], [*self.words(), "--every"], [*self.words(every="8"), "--every", "8"]
        numbers = [{name: number} for name in ("cycles", "every") for number in ("0", "-1", "x", "4294967296")]
        no_texts = [b"\xff"], [self.core, b"\xff", "--cycles", "9"], [*self.words(), "--every", b"\xff"]
        for words in (*texts, *(self.words(**more) for more in numbers), *no_texts):
            self.refused(2, b"words\n", *words)

    def test_files(self):
        known = bytes_of(self.core)
        longest = known + b"#" * (DESCRIPTION_MAX - len(known))
        none = os.path.join(self.folder, "none")
        for every in (None, "1"):
            self.refused(4, b"description K1\n", *self.words(self.file("bytes", b"\xff"), every=every))
            self.refused(4, b"description K3 core.fetch_width\n", *self.words(self.file("empty", b""), every=every))
            self.written(0, b"end exit 0 retired 2 cycles 5", *self.words(self.file("longest", longest), every=every))
            self.refused(4, b"description too long\n", *self.words(self.file("longer", longest + b"#"), every=every))
            self.refused(5, b"image E1 52 0\n", *self.words(path=self.file("none_of_it", b""), every=every))
            self.refused(5, b"image E2\n", *self.words(path=self.file("zeros", b"", 52), every=every))
            self.refused(5, b"image too long\n", *self.words(path=self.file("long", image(EXIT), IMAGE_MAX + 1), every=every))
            for path in (none, self.folder, ""):
                self.refused(6, b"read description\n", path, *self.words(every=every)[1:])
                self.refused(6, b"read image\n", self.core, path, *self.words(every=every)[2:])

    def test_output_that_fails(self):
        """A line on the way that can't be written ends the run, however long it would go on."""
        for words in (self.words(), self.words(every="8"), self.words(every="1000"), self.words(path=self.loop, cycles="4294967295", every="1")):
            self.cut(b"write\n", *words)

    def test_output_that_fails_on_the_way(self):
        """What was written is a prefix of the text."""
        words = self.words(path=self.loop, cycles="200", every="1")
        whole = self.ran(*words)[1]
        for length in (1, 1000, 10000, len(whole) - 40, len(whole) - 1):
            path = os.path.join(self.folder, "out")

            def limit():
                signal.signal(signal.SIGXFSZ, signal.SIG_IGN)
                resource.setrlimit(resource.RLIMIT_FSIZE, (length, length))
            with open(path, "wb") as out:
                done = subprocess.run([self.PROGRAM, *words], stdout=out, stderr=subprocess.PIPE, timeout=60, check=False, preexec_fn=limit)
            self.assertEqual((done.returncode, done.stderr, bytes_of(path)), (7, b"write\n", whole[:length]))

    def test_a_note_that_fails_changes_no_status(self):
        self.untold(2)
        self.untold(6, *self.words(path=os.path.join(self.folder, "none"), every="1"))

    def test_memory(self):
        self.starved(*self.words())
        self.starved(*self.words(every="4"))


class Hostile(unittest.TestCase):
    """tools/hostile/run, which no program has to be built for."""

    def test_no_tries_are_refused(self):
        """A run that tried nothing has found nothing wrong."""
        for number in ("0", "-1", "many"):
            ran = subprocess.run([sys.executable, os.path.join(ROOT, "tools", "hostile", "run"), "--tries", number], capture_output=True,
                                 text=True, timeout=60, check=False)
            self.assertEqual((ran.returncode, ran.stdout), (2, ""))
            self.assertIn(f"`{number}` is no number from 1 to ", ran.stderr)


if __name__ == "__main__":
    unittest.main()
