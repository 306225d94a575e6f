"""The programs of examples/c that are no victims: each built image writes what the same source writes as a program of the host, and what
start code, memory functions, constructors and the C library are there for happens."""
import importlib.util
import functools
import glob
import os
import shutil
import subprocess
import tempfile
import unittest

FOLDER = os.path.dirname(os.path.dirname(os.path.abspath(__file__)))
ROOT = os.path.dirname(os.path.dirname(FOLDER))
from wadrelwy import built_programs
from wadrelwy.verdict import simulator
from wadrelwy.verdict.loaded import Loaded

PROGRAM = built_programs.simulator()
PROGRAMS = sorted(os.path.splitext(os.path.basename(path))[0] for path in glob.glob(os.path.join(FOLDER, "programs", "*.c")))
PICOLIBC = "/usr/lib/picolibc/riscv64-unknown-elf/include"
GCC = bool(shutil.which("make") and shutil.which("riscv64-unknown-elf-gcc"))
CLANG = bool(shutil.which("make") and shutil.which("clang") and shutil.which("ld.lld"))
HOST = shutil.which("cc") or shutil.which("gcc")
COMPILERS = [name for name, there in (("gcc", GCC), ("clang", CLANG)) if there]
LIBRARIES = [name for name, there in (("picolibc", GCC), ("picolibc-clang", GCC and CLANG)) if there and os.path.isdir(PICOLIBC)]

needs_program = unittest.skipUnless(PROGRAM, "the program isn't built")
needs_gcc = unittest.skipUnless(GCC, "no make or gcc for RISC-V")
needs_compiler = unittest.skipUnless(COMPILERS, "no make or compiler for RISC-V")

CONSTRUCTED = "static volatile int first; static int x; __attribute__((constructor)) static void begin(void) { x = first + 5; }\n" \
              "int main(void) { return x; }\n"
LOOKED = """#include "victim.h"
template <int N> struct Box { u8 at[N]; u8 look(u8 place) const { return at[place]; } };
Box<256> box __attribute__((aligned(64)));
volatile u8 sink;
int main() { sink = box.look(key[0]); return 0; }
"""
# structures and arrays that compilers set and copy by memset and memcpy, some of them over one another
COPIES = """
struct big { int n[40]; } one, two;
int places[50];
void *memmove(void *, const void *, unsigned); int memcmp(const void *, const void *, unsigned);
__attribute__((noinline)) struct big made(int seed) { struct big it = {{0}}; it.n[seed] = seed; return it; }
int main(void) {
  one = made(7); two = one;
  for (int i = 0; i < 50; i++) places[i] = i;
  memmove(places + 1, places, 40 * sizeof *places);
  memmove(places, places + 2, 40 * sizeof *places);
  return two.n[7] + (two.n[6] == 0) + (places[5] == 6) + (places[38] == 39) + (places[39] == 41)
         + (memcmp("ab", "abc", 2) == 0) + (memcmp("b", "a", 1) > 0) + (memcmp("a", "\\xff", 1) < 0);
}
"""
HEAP = """
#include <errno.h>
#include <stdio.h>
#include <stdlib.h>
int main(void) {
  void *volatile kept;
  int blocks = 0, answer;
  while ((kept = malloc(10000))) blocks++;
  answer = errno == ENOMEM && blocks > 90 && blocks < 104 && getchar() == EOF;
  printf("no newline");
  return answer;
}
"""
# some 200 times 128 bytes of stack
DEEP = """volatile int depth = 200;
static int down(int left) { volatile int kept[28]; kept[left % 28] = left; return left ? down(left - 1) + kept[left % 28] - left : 7; }
int main(void) { return down(depth); }
"""


@functools.cache
def folder():
    kept = tempfile.TemporaryDirectory()
    folder.kept = kept
    return kept.name


def make(*targets):
    targets = [target if "=" in target else os.path.join(folder(), target) for target in targets]
    return subprocess.run(["make", "-s", "-C", FOLDER, f"BUILD={folder()}", f"VPATH={folder()}", *targets], capture_output=True,
                          text=True, check=False)


def written(image):
    """The output of a run on the instruction set, and its last line without its counts."""
    *lines, last = simulator.run(PROGRAM, "isa", os.path.join(folder(), image), "--steps", "20000000").splitlines()
    output = b"".join(bytes.fromhex(line[4:]) for line in lines if line.startswith("out "))
    return output.decode(), last.split(" retired ")[0]


def source(name, text):
    with open(os.path.join(folder(), name), "w", encoding="utf-8") as file:
        file.write(text)


class Victims(unittest.TestCase):
    @needs_compiler
    @unittest.skipUnless(importlib.util.find_spec("elftools"), "no python3-pyelftools")
    def test_a_victim_in_cplusplus(self):
        """It is linked with each key, and the two images differ in these bytes alone: the keys of secret_a.c and secret_b.c."""
        source("looked.cpp", LOOKED)
        for compiler in COMPILERS:
            with self.subTest(compiler=compiler):
                self.assertEqual(make(f"{compiler}/looked_a.elf", f"{compiler}/looked_b.elf", "EXTRA=-I.").stderr, "")
                images = [Loaded(os.path.join(folder(), compiler, f"looked_{side}.elf"), 0x10000, 0x100000) for side in "ab"]
                [(start, size)] = {(address, size) for address, size, name in images[0].symbols if name == "key"}
                differ = {images[0].base + at for at, (a, b) in enumerate(zip(*(image.memory for image in images))) if a != b}
                self.assertTrue(differ and differ <= set(range(start, start + size)), differ)
                self.assertEqual(images[0].words, images[1].words)


@needs_program
class Programs(unittest.TestCase):
    @unittest.skipUnless(GCC and HOST, "no gcc for RISC-V and for this machine")
    def test_as_on_the_host(self):
        self.assertGreaterEqual(len(PROGRAMS), 12)
        built = make(*(f"gcc/programs/{name}.elf" for name in PROGRAMS))
        self.assertEqual((built.returncode, built.stderr), (0, ""))
        for name in PROGRAMS:
            with self.subTest(program=name):
                host = os.path.join(folder(), name)
                subprocess.run([HOST, "-w", "-fno-builtin", "-o", host, os.path.join(FOLDER, "programs", f"{name}.c")], check=True)
                expected = subprocess.run([host], capture_output=True, text=True, check=True).stdout
                self.assertRegex(expected, f"^{name} [0-9a-f]{{8}}\n$")
                self.assertEqual(written(f"gcc/programs/{name}.elf"), (expected, "end exit 0"))

    @needs_compiler
    def test_what_compilers_call_by_themselves(self):
        source("copies.c", COPIES)
        for compiler in COMPILERS:
            with self.subTest(compiler=compiler):
                self.assertEqual(make(f"{compiler}/copies.elf").stderr, "")
                self.assertEqual(written(f"{compiler}/copies.elf"), ("", "end exit 14"))

    @needs_compiler
    def test_cplusplus(self):
        for compiler in [*COMPILERS, *LIBRARIES]:
            with self.subTest(compiler=compiler):
                self.assertEqual(make(f"{compiler}/shapes.elf").stderr, "")
                self.assertEqual(written(f"{compiler}/shapes.elf"), ("29\n", "end exit 29"))

    @needs_gcc
    def test_a_library_that_is_missing(self):
        told = make("picolibc/words.elf", "PICOLIBC_AT=/nowhere")
        self.assertNotEqual(told.returncode, 0)
        self.assertIn("no picolibc at /nowhere: apt-get install picolibc-riscv64-unknown-elf", told.stderr)

    @needs_gcc
    def test_constructors_are_never_skipped(self):
        source("constructed.c", CONSTRUCTED)
        refused = make("gcc/constructed.elf")
        self.assertNotEqual(refused.returncode, 0)
        self.assertIn("constructors would be skipped", refused.stderr)
        self.assertEqual(make("gcc/constructed.elf", "CONSTRUCTORS=1").stderr, "")
        self.assertEqual(written("gcc/constructed.elf"), ("", "end exit 5"))

    @needs_compiler
    def test_guard_below_the_stack(self):
        """With GUARD a stack that is too deep is told where it leaves memory, and data is as it was; else it writes over data first."""
        source("deep.c", DEEP)
        for compiler in COMPILERS:
            with self.subTest(compiler=compiler):
                ends = {}
                for guard in ("GUARD=4096", "GUARD=65536", "GUARD="):
                    self.assertEqual(make(f"{compiler}/deep.elf", guard).stderr, "")
                    ends[guard] = written(f"{compiler}/deep.elf")
                self.assertEqual((ends["GUARD=4096"][0], ends["GUARD=65536"], ends["GUARD="]), ("", ("", "end exit 7"), ("", "end exit 7")))
                self.assertRegex(ends["GUARD=4096"][1], "end trap 7 0001[0-9a-f]{4}")
                refused = make(f"{compiler}/deep.elf", "GUARD=100")
                self.assertNotEqual(refused.returncode, 0)
                self.assertIn("GUARD is a multiple of 64", refused.stderr)


@needs_program
@unittest.skipUnless(LIBRARIES, "no picolibc-riscv64-unknown-elf")
class WithLibrary(unittest.TestCase):
    @unittest.skipUnless(HOST, "no gcc for this machine")
    def test_as_on_the_host(self):
        host = os.path.join(folder(), "words_of_host")
        subprocess.run([HOST, "-w", "-o", host, os.path.join(FOLDER, "words.c")], check=True)
        ran = subprocess.run([host], capture_output=True, text=True, check=False)
        for library in LIBRARIES:
            with self.subTest(library=library):
                self.assertEqual(make(f"{library}/words.elf").stderr, "")
                self.assertEqual(written(f"{library}/words.elf"), (ran.stdout, f"end exit {ran.returncode}"))

    def test_heap_and_streams(self):
        """A heap of 1 MiB less image and stack, which ends with ENOMEM; no input; a line without its newline goes out at the end."""
        source("heap.c", HEAP)
        for library in LIBRARIES:
            with self.subTest(library=library):
                for guard in ("GUARD=", "GUARD=16384"):
                    self.assertEqual(make(f"{library}/heap.elf", guard).stderr, "")
                    self.assertEqual(written(f"{library}/heap.elf"), ("no newline", "end exit 1"))


if __name__ == "__main__":
    unittest.main()
