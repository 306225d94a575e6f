"""Lines of source files: what the image's line table says, held against binutils' addr2line where that is there."""
import os
import shutil
import subprocess
import unittest

import support
from wadrelwy.view import Fault, annotate, listing, stats, why
from wadrelwy.view.disassembly import KINDS, Disassembler
from wadrelwy.view.image import Image
from wadrelwy.view.sources import Line, Sources, read_sources, short_names

C = support.example("c")
PARTS = {"inner.h": "static inline int twice(int x) {\n    return x * 2 + 1;\n}\n",
         "outer.c": '#include "inner.h"\nint table[16];\nint sum(int x) {\n    int all = 0;\n    for (int i = 0; i < 16; i++)\n'
                    "        all += twice(table[i] / x);\n    return all;\n}\nint main(void) {\n    return sum(3);\n}\n"}
FLAGS = ["-march=rv32im", "-mabi=ilp32", "-O2", "-ffreestanding", "-nostdlib", "-static", "-T", os.path.join(C, "link.ld")]
COMPILERS = {"riscv64-unknown-elf-gcc": [], "clang": ["--target=riscv32-unknown-elf", "-mno-relax", "-fuse-ld=lld"]}
ADDR2LINE = "riscv64-unknown-elf-addr2line"


def built(compiler, option):
    """The file of the small program built so."""
    for name, text in PARTS.items():
        support.file_of(name, text.encode())
    path = os.path.join(support.FOLDER.name, f"{compiler}{option}.elf")
    sources = [os.path.join(C, "start.S"), os.path.join(support.FOLDER.name, "outer.c")]
    words = [compiler, *COMPILERS[compiler], *FLAGS, option, "-o", path, *sources]
    subprocess.run(words, check=True, capture_output=True, timeout=60)
    return path


class Rows(unittest.TestCase):
    def test_a_line_holds_up_to_the_next_row(self):
        first, second = Line("/a/x.c", 1), Line("/a/y.c", 2)
        found = Sources([(8, second), (0, first), (12, None)])
        self.assertEqual([found.line(address) for address in (0, 4, 8, 11, 12, 100)], [first, first, second, second, None, None])
        self.assertEqual((found.told(4), found.told(12)), ("x.c:1", ""))

    def test_of_one_address_the_last_row_counts_but_not_an_end(self):
        found = Sources([(0, Line("x.c", 1)), (4, Line("x.c", 2)), (4, Line("x.c", 3)), (4, None)])
        self.assertEqual(found.line(4), Line("x.c", 3))

    def test_folders_are_told_where_names_are_alike(self):
        self.assertEqual(short_names({"/p/a/x.c", "/p/b/x.c", "/p/b/y.c", "x.c"}),
                         {"/p/a/x.c": "a/x.c", "/p/b/x.c": "b/x.c", "/p/b/y.c": "y.c", "x.c": "x.c"})

    def test_an_image_without_them(self):
        self.assertFalse(read_sources(support.example("bounds_check.elf")))


class Tables(unittest.TestCase):
    def each(self):
        for compiler in COMPILERS:
            if shutil.which(compiler):
                for version in (3, 4, 5):
                    yield built(compiler, f"-gdwarf-{version}")

    @unittest.skipUnless(shutil.which(ADDR2LINE), "no addr2line of RISC-V (binutils-riscv64-unknown-elf)")
    def test_each_address_has_the_line_of_addr2line(self):
        paths = list(self.each())
        if not paths:
            self.skipTest("no compiler of RISC-V: gcc-riscv64-unknown-elf, or clang and lld")
        for path in paths:
            found, words = read_sources(path), sorted(Image(path).words)
            told = subprocess.run([ADDR2LINE, "-s", "-e", path, *map(hex, words)], capture_output=True, text=True, check=True)
            expected = [line.split(" (")[0].replace("??:0", "").replace("??:?", "") for line in told.stdout.splitlines()]
            self.assertEqual([found.told(word) for word in words], expected, path)
            self.assertTrue({"inner.h:2", "outer.c:6"} <= set(expected), path)

    def test_a_place_names_its_line(self):
        path = next(self.each(), None)
        if path is None:
            self.skipTest("no compiler of RISC-V: gcc-riscv64-unknown-elf, or clang and lld")
        image = Image(path)
        address = next(word for word in image.words if image.sources.told(word) == "inner.h:2")
        self.assertTrue(Disassembler(image, KINDS).place(address).endswith("> inner.h:2"))

    @unittest.skipIf(support.NO_PROGRAM, support.NO_PROGRAM)
    def test_each_subcommand_names_lines(self):
        path = next(self.each(), None)
        if path is None:
            self.skipTest("no compiler of RISC-V: gcc-riscv64-unknown-elf, or clang and lld")
        described = support.example("large_passing.toml")
        lines = support.trace_of(described, path, 2000)
        for write in (why.lines_of, listing.lines_of):
            run, disassembler = support.fresh(lines, path, described)
            text = "\n".join(write(run, disassembler, 1, None, *([False] if write is why.lines_of else [])))
            self.assertRegex(text, r"<main\+0x[0-9a-f]+> inner\.h:2")
        run = support.taken(*support.fresh(lines, path, described))
        self.assertRegex("\n".join(stats.lines_of(run)), r"<main[^>]*> (outer\.c:[56]|inner\.h:2)")
        text = "\n".join(annotate.lines_of(run, True))
        self.assertRegex(text, r"(?m)^ +\d+ .*     6         all \+= twice\(table\[i\] / x\);$")
        self.assertRegex(text, r"(?m)^ +\d+ .*     2     return x \* 2 \+ 1;$")
        self.assertIn("outer.c:6", "\n".join(annotate.lines_of(run, False)))

    @unittest.skipIf(support.NO_IMAGES, support.NO_IMAGES)
    def test_a_cut_table_is_refused(self):
        path = next(self.each(), None)
        if path is None:
            self.skipTest("no compiler of RISC-V: gcc-riscv64-unknown-elf, or clang and lld")
        cut = os.path.join(support.FOLDER.name, "cut.elf")
        with open(path, "rb") as file:
            data = bytearray(file.read())
        from elftools.elf.elffile import ELFFile
        with open(path, "rb") as file:
            place = ELFFile(file).get_section_by_name(".debug_line")["sh_offset"]
        data[place + 4:place + 20] = b"\xff" * 16
        with open(cut, "wb") as file:
            file.write(data)
        with self.assertRaisesRegex(Fault, r"the line table \(-g\) can't be read"):
            read_sources(cut)
