"""Images: code as loaded, and symbols (docs/formats.md, "Placing" and "Code"); descriptions; texts of instructions."""
import re
import shutil
import struct
import unittest

import support
from wadrelwy.view import Fault
from wadrelwy.view.description import read_description
from wadrelwy.view.disassembly import CALLERS, KINDS, MANUAL, Disassembler
from wadrelwy.view.image import FILTERS, Image, demangled

READ, WRITE, EXECUTE = 4, 2, 1


def words(name, segments):
    return Image(support.file_of(name, support.elf(segments))).words


def named_among(names, function):
    """How a function is shown of an image with these symbols."""
    image = Image(support.example("bounds_check.elf"))
    image.symbols, image.shown = [(0x10000 + 8 * at, 8, name) for at, name in enumerate(names)], demangled(names)
    return image.function_named(function)


class Code(unittest.TestCase):
    def test_words_of_an_example(self):
        self.assertEqual(Image(support.example("bounds_check.elf")).words[0x10008], 0x00507A63)

    def test_only_whole_words_of_the_file_are_code(self):
        found = words("part.elf", [(READ | EXECUTE, 0x10002, bytes(range(1, 12)), 64)])
        self.assertEqual(found, {0x10004: 0x06050403, 0x10008: 0x0A090807})

    def test_a_segment_that_is_not_executable_is_no_code(self):
        self.assertEqual(words("data.elf", [(READ | WRITE, 0x10000, bytes(8), 8)]), {})

    def test_a_later_segment_lies_over_an_earlier_one_with_its_zero_bytes_too(self):
        found = words("over.elf", [(READ | EXECUTE, 0x10000, b"\x11" * 12, 12), (READ | WRITE, 0x10004, b"\x22" * 2, 4)])
        self.assertEqual(found, {0x10000: 0x11111111, 0x10004: 0x00002222, 0x10008: 0x11111111})

    def test_outside_code_an_instruction_can_only_trap(self):
        self.assertEqual(Image(support.example("bounds_check.elf")).instruction(0x20000).kind, "stop")

    def test_symbols(self):
        image = Image(support.example("bounds_check.elf"))
        self.assertEqual(image.symbol(0x10000), "_start")
        self.assertEqual(image.symbol(0x10018), "_start+0x18")
        self.assertEqual(image.symbol(0x0FFFC), "")
        self.assertEqual(image.symbol(0x18000), "")

    def test_a_symbol_with_a_size_comes_before_one_without(self):
        image = Image(support.example("bounds_check.elf"))
        image.symbols, image.addresses = [(0x10000, 0x18, "table"), (0x10008, 0, "label")], [0x10000, 0x10008]
        self.assertEqual([image.symbol(0x10000 + at) for at in (4, 0xC, 0x18)], ["table+0x4", "table+0xc", "label+0x10"])

    @unittest.skipUnless(any(map(shutil.which, FILTERS)), "no c++filt (Debian: binutils)")
    def test_names_of_cplusplus_are_those_of_the_sources(self):
        """Functions are named as linkers have them, in whole, or without parameters where that is one; `+` is also an operator's."""
        image = Image(support.example("bounds_check.elf"))
        names = ["_ZNK5TableIhLi4EE2atEi.isra.0", "_Z3fooi", "_Z3fool", "_ZplRK1VS1_"]
        image.symbols = [(0x10000 + 8 * at, 8, name) for at, name in enumerate(names)]
        image.addresses, image.shown = [address for address, _, _ in image.symbols], demangled(names)
        self.assertEqual([image.symbol(0x10004 + 8 * at) for at in range(4)], [
            "Table<unsigned char, 4>::at(int) const [clone .isra.0]+0x4", "foo(int)+0x4", "foo(long)+0x4",
            "operator+(V const&, V const&)+0x4"])
        self.assertEqual(image.function(0x1001C), "operator+(V const&, V const&)")
        self.assertEqual(image.function_named("operator+"), "operator+(V const&, V const&)")
        self.assertEqual(image.function_named("_Z3fool"), "foo(long)")
        self.assertEqual(image.function_named("Table<unsigned char, 4>::at"), image.function(0x10000))
        self.assertEqual(image.function_named("main"), "main")
        self.assertEqual(named_among(["_Z3fooi", "foo"], "foo"), "foo")
        self.assertEqual(named_among(["verify.constprop.0", "verified"], "verify"), "verify.constprop.0")
        with self.assertRaisesRegex(Fault, r"has several of `verify`: verify.constprop.0; verify.part.1"):
            named_among(["verify.constprop.0", "verify.part.1"], "verify")
        with self.assertRaisesRegex(Fault, r"has several of `foo`: foo\(int\); foo\(long\)"):
            image.function_named("foo")

    def test_what_is_no_image_is_refused(self):
        for name, data in (("empty.elf", b""), ("text.elf", b"no image at all" * 10)):
            with self.assertRaises(Fault):
                Image(support.file_of(name, data))
        with self.assertRaises(Fault):
            Image("/nowhere/a.elf")

    @unittest.skipIf(support.NO_IMAGES, support.NO_IMAGES)
    def test_a_damaged_table_of_symbols(self):
        """Its names stand in a section that has none: the first one."""
        with open(support.example("bounds_check.elf"), "rb") as file:
            data = bytearray(file.read())
        table, size, count = *struct.unpack_from("<I", data, 32), *struct.unpack_from("<HH", data, 46)
        symbols = [at for at in range(table, table + size * count, size) if struct.unpack_from("<I", data, at + 4) == (2,)]
        self.assertEqual(len(symbols), 1)
        struct.pack_into("<I", data, symbols[0] + 24, 0)
        with self.assertRaisesRegex(Fault, "damaged.elf: no ELF image"):
            Image(support.file_of("damaged.elf", data))

    @unittest.skipIf(support.NO_IMAGES, support.NO_IMAGES)
    def test_images_for_other_machines(self):
        """What the simulator refuses is refused here, with what to do: width, machine, kind, compressed code."""
        plain = support.elf([(5, 0x10000, b"\x73\0\0\0", 4)])
        wide = b"\x7fELF" + bytes([2, 1, 1]) + bytes(9) + struct.pack("<HHIQQQIHHHHHH", 2, 243, 1, 0, 0, 0, 0, 64, 56, 0, 0, 0, 0)
        for data, note in [(wide, "a 64-bit image: build with -march=rv32im -mabi=ilp32"),
                           (plain[:18] + b"\x03\0" + plain[20:], "an image for another machine"),
                           (plain[:16] + b"\x01\0" + plain[18:], "an object file: link it"),
                           (plain[:16] + b"\x03\0" + plain[18:], "position-independent: link with -static -no-pie"),
                           (plain[:36] + b"\x01\0\0\0" + plain[40:], "compressed code")]:
            with self.subTest(note=note), self.assertRaises(Fault) as told:
                Image(support.file_of("other.elf", data))
            self.assertIn(f"other.elf: {note}", str(told.exception))
        self.assertEqual(Image(support.file_of("other.elf", plain)).words, {0x10000: 0x73})


class Descriptions(unittest.TestCase):
    def test_an_example(self):
        found = read_description(support.example("core_futuristic.toml"))
        self.assertEqual((found.rob, found.alus, found.miss_latency, found.model), (16, 2, 10, "futuristic"))

    def test_what_is_none_is_refused(self):
        for text in (b"[core", b"[core]\nrob = 4\n", b"core = 4\n", b"\xff"):
            with self.assertRaises(Fault, msg=text):
                read_description(support.file_of("wrong.toml", text))

    def test_what_is_of_another_kind_is_refused_by_name(self):
        """The text is that of core_version_2.toml, with a line in place of another."""
        with open(support.example("core_version_2.toml"), encoding="utf-8") as file:
            known = file.read()
        for old, new, told in (
                (r"rob = \d+", 'rob = "16"', "core.rob is a whole number from 1 to 4294967295, and '16' isn't"),
                (r"rob = \d+", "rob = true", "core.rob is a whole number from 1 to 4294967295, and True isn't"),
                (r"rob = \d+", "rob = 16.0", "core.rob is a whole number from 1 to 4294967295, and 16.0 isn't"),
                (r"rob = \d+", "", "the description has no core.rob"),
                (r"line = \d+", "line = 0", "cache.line is a whole number from 1 to 4294967295, and 0 isn't"),
                (r"retire_width = \d+", "retire_width = 0", "core.retire_width is a whole number from 1 to 4294967295, and 0 isn't"),
                (r"base = \S+", "base = -16", "ram.base is a whole number from 0 to 4294967295, and -16 isn't"),
                (r"base = \S+", "base = 4294967296", "ram.base is a whole number from 0 to 4294967295, and 4294967296 isn't"),
                (r"\[predictor\]", "[predictor]\ndepend = [1]", "predictor.depend is a whole number from 0 to 4294967295, and [1] isn't"),
                (r"\[stt\]", '[stt]\ndefence = ["hold"]', "stt.defence is none of stt, hold, delay"),
                (r"model = \S+", "model = 1", "stt.model is none of spectre, futuristic, off"),
                (r"version = 2", "version = 3", "version is 1 or 2"), (r"version = 2", 'version = "2"', "version is 1 or 2"),
                (r"version = 2", "version = true", "version is 1 or 2")):
            text, places = re.subn(rf"(?m)^{old}", new, known)
            self.assertEqual(places, 1, old)
            path = support.file_of("wrong.toml", text.encode())
            with self.subTest(new=new), self.assertRaises(Fault) as refused:
                read_description(path)
            self.assertEqual(str(refused.exception), f"{path}: {told}")
        for text, told in ((b"core = 4\n", "core is a table, [core]"), (b"a = " + b"[" * 60000, "no TOML text")):
            with self.assertRaises(Fault) as refused:
                read_description(support.file_of("wrong.toml", text))
            self.assertIn(told, str(refused.exception))


class Texts(unittest.TestCase):
    def setUp(self):
        self.image = Image(support.example("bounds_check.elf"))

    def texts(self, notation):
        found = Disassembler(self.image, notation)
        if found.by == KINDS:
            self.skipTest("no disassembler of RISC-V: neither a capstone that knows it nor binutils-riscv64-unknown-elf")
        return found

    def test_the_manuals_notation(self):
        found = self.texts(MANUAL)
        self.assertEqual(found.text(0x10000), "lw x5, 0(x2)")
        if found.by == "objdump":
            self.assertEqual(found.text(0x10008), "bgeu x0, x5, 0x1001c")
        self.assertEqual(found.place(0x10018), "00010018 lw x7, -2048(x6) <_start+0x18>")

    def test_the_compilers_notation(self):
        self.assertEqual(self.texts(CALLERS).text(0x1000C), "lbu t1, 8(sp)")

    def test_an_image_without_sections(self):
        self.image = Image(support.image_of_words("plain", [0x00012283]))
        self.assertEqual(self.texts(MANUAL).text(0x10000), "lw x5, 0(x2)")

    def test_kinds_stand_where_there_is_no_disassembler(self):
        found = Disassembler(self.image, KINDS)
        self.assertEqual(found.text(0x10014), "arithmetic x6, x6, x2")
        self.assertEqual(found.text(0x20000), "(no code)")
