"""The samples of the documents: how they are read, and what is told of one that is wrong. That those of this repository are right is asked by
test_check.py."""
import os
import re
import unittest
import unittest.mock

HERE = os.path.dirname(os.path.abspath(__file__))
import samples

PAGE = """# A page

    $ echo one
    one

    $ printf 'a b\\n' \\
        && echo c
    ..
    c

    echo no sample

Text.

    $ echo "two words" > /dev/null
    $ echo two words
    two ..
"""


class Reading(unittest.TestCase):
    def test_commands_and_lines(self):
        self.assertEqual(samples.samples(PAGE), [
            ("echo one", ["one"]), ("printf 'a b\\n' \\\n    && echo c", ["..", "c"]), ('echo "two words" > /dev/null', []),
            ("echo two words", ["two .."])])

    def test_pattern(self):
        cases = [(["a", "..", "b"], "a\nb\n", True), (["a", "..", "b"], "a\nx\ny\nb\n", True), (["a", "b"], "a\nx\nb\n", False),
                 (["..", "b"], "b\nc\n", False), (["a .."], "a b c\n", True), (["a .."], "ab\n", False), (["a.."], "a..\n", False)]
        for lines, text, fits in cases:
            with self.subTest(lines=lines, text=text):
                self.assertEqual(bool(re.fullmatch(samples.pattern(lines), text)), fits)

    def test_what_is_wrong(self):
        self.assertEqual(samples.wrong("page", PAGE, "/bin/true"), [])
        cases = [("    one\n", "    two\n", "page: `echo one` doesn't write `two`"),
                 ("$ echo one\n", "$ false\n", "page: `false` doesn't write `one`"),
                 ("> /dev/null\n", "> /dev/null; exit 3\n", "page: `echo \"two words\" > /dev/null; exit 3` ends with status 3"),
                 ("echo two words\n", "echo two words; echo three\n", "page: `echo two words; echo three` writes its lines in another order")]
        for old, new, told in cases:
            with self.subTest(new=new):
                found = samples.wrong("page", PAGE.replace(old, new, 1), "/bin/true")
                self.assertEqual([it[:len(told)] for it in found], [told])

    def test_program(self):
        """A command finds the program by STT_CLI, whatever that is here."""
        self.assertEqual(samples.wrong("page", "    $ $STT_CLI && echo yes\n    yes\n", "/bin/true"), [])

    def test_what_is_lacking(self):
        self.assertIsNone(samples.lacking("echo one"))
        kept, samples.NEEDS = samples.NEEDS, [("build/gcc", "no-such-compiler")]
        self.addCleanup(setattr, samples, "NEEDS", kept)
        self.assertEqual(samples.lacking("make build/gcc/x.elf"), "no-such-compiler")


    def test_a_question_about_a_secret_needs_its_program(self):
        for named, lacking in (("/no/such/program", "stt_secrets"), ("/bin/true", None)):
            with self.subTest(named), unittest.mock.patch.dict(os.environ, {"STT_SECRETS": named}):
                self.assertEqual(samples.lacking("verdict D A --secret key"), lacking)

    def test_counts_need_theirs(self):
        for named, lacking in (("/no/such/program", "stt_stats"), ("/bin/true", None)):
            with self.subTest(named), unittest.mock.patch.dict(os.environ, {"STT_STATS": named}):
                self.assertEqual(samples.lacking("wadrelwy stats D A"), lacking)


class ThisRepository(unittest.TestCase):
    def test_there_are_samples(self):
        """Each command of the program has one in README.md, and the verdict."""
        with open(os.path.join(samples.TOP, "README.md"), encoding="utf-8") as file:
            found = samples.samples(file.read())
        words = [command.split()[1] for command, _ in found if command.startswith("$STT_CLI")]
        self.assertEqual(words, ["isa", "run", "trace", "bench", "pair"])
        self.assertTrue(any(command.startswith("wadrelwy verdict") for command, _ in found))


if __name__ == "__main__":
    unittest.main()
