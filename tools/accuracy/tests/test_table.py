"""tools/accuracy/table: what is kept is taken for what it is of alone."""
import contextlib
import importlib.machinery
import importlib.util
import io
import json
import os
import sys
import tempfile
import unittest
from unittest import mock

HERE = os.path.dirname(os.path.dirname(os.path.realpath(__file__)))

sys.dont_write_bytecode = True
from wadrelwy import Fault


def load():
    loader = importlib.machinery.SourceFileLoader("accuracy_table", os.path.join(HERE, "table"))
    module = importlib.util.module_from_spec(importlib.util.spec_from_loader("accuracy_table", loader))
    loader.exec_module(module)
    return module


table = load()
# 400 instructions in 500 cycles, so 1.25 cycles an instruction; the estimate of 1.5 is a fifth too high
COUNTS = "".join(f"{name} {400 if name in ('retired', 'slots_base') else 0}\n" for name in table.numbers.NAMES) + "end exit 0 retired 400 cycles 500\n"
FIGURES = "figure,value,half_interval,longer_changes\ncycles_per_instruction,1.5,0.25,0\n"
ESTIMATES = "low,high\n1.0,2.0\n"


class Kept(unittest.TestCase):
    def setUp(self):
        kept = tempfile.TemporaryDirectory()
        self.addCleanup(kept.cleanup)
        self.folder, self.asked = kept.name, []
        self.program, self.image = os.path.join(kept.name, "stt_stats"), os.path.join(kept.name, "sort.elf")
        for path in (self.program, self.image):
            self.put(path, "at first")
        self.case = table.Case("sort", "large_passing")
        for changed in (mock.patch.object(table, "BUILT", kept.name), mock.patch.object(table, "took", self.took),
                        mock.patch.object(table.built_programs, "needed", lambda *_: self.program)):
            changed.start()
            self.addCleanup(changed.stop)

    def put(self, path, text):
        with open(path, "w", encoding="utf-8") as file:
            file.write(text)

    def took(self, words):
        """Stands for the runs: writes what they write."""
        self.asked.append("sample" if "sample" in words else "whole")
        if "sample" in words:
            out = words[words.index("-o") + 1]
            os.makedirs(os.path.join(out, "images"))
            self.put(os.path.join(out, "figures.csv"), FIGURES)
            self.put(os.path.join(out, "estimates.csv"), ESTIMATES)
        return table.Took(1.0, 1.0, COUNTS)

    def compared(self, *words, is_gathered=False):
        return table.compared(self.case, self.folder, list(words), is_gathered)

    def refused(self, what, *words, is_gathered=False):
        begun = len(self.asked)
        with self.assertRaisesRegex(Fault, f"it isn't of the same {what}: "):
            self.compared(*words, is_gathered=is_gathered)
        self.assertEqual(len(self.asked), begun)

    def test_what_is_kept_is_made_once(self):
        row = self.compared().row()
        self.assertEqual((row[1], row[3], row[4], row[5]), ("400", "1.2500", "1.5000", "+20.0 %"))
        self.assertEqual(self.compared().row(), row)
        self.assertEqual(self.compared(is_gathered=True).row(), row)
        self.assertEqual(self.asked, ["whole", "sample"])

    def test_what_is_of_something_else_is_refused(self):
        for what, change in (("image", lambda: self.put(self.image, "another")), ("program", lambda: self.put(self.program, "another")),
                             ("description", lambda: table.SETTINGS.update(large_passing=("large_passing.toml", {"stt.model": "off"})))):
            with self.subTest(what), mock.patch.dict(table.SETTINGS):
                for path in (self.program, self.image):
                    self.put(path, "at first")
                self.compared()
                change()
                self.refused(what)

    def test_an_estimate_of_other_words_is_refused(self):
        self.compared("--windows", "50")
        self.refused("words", "--windows", "90")
        self.refused("words")
        self.assertEqual(self.compared(is_gathered=True).truth("cycles_per_instruction"), 1.25)

    def test_what_is_gathered_is_of_one_image(self):
        self.compared()
        path = self.case.kept(self.folder, table.ESTIMATE)
        with open(path, encoding="utf-8") as file:
            found = json.load(file)
        found["of"]["image"] = "0" * 64
        self.put(path, json.dumps(found))
        self.refused("image", is_gathered=True)

    def test_what_is_damaged_or_tells_nothing_is_refused(self):
        self.compared()
        path = self.case.kept(self.folder, table.WHOLE)
        self.put(path, "{")
        with self.assertRaisesRegex(Fault, "damaged"):
            self.compared()
        self.put(path, "{}")
        self.refused("image")

    def test_a_folder_that_keeps_nothing(self):
        with mock.patch.object(sys, "argv", ["table", "-o", self.folder, "--gather"]), contextlib.redirect_stdout(io.StringIO()) as told:
            with self.assertRaisesRegex(Fault, "keeps no whole run"):
                table.main()
        self.assertEqual(told.getvalue(), "")
        self.assertFalse(os.path.exists(os.path.join(self.folder, "table.md")))


if __name__ == "__main__":
    unittest.main()
