"""The stored images of the gadgets are those that examples/Makefile builds from their assembly."""
import glob
import os
import shutil
import subprocess
import tempfile
import unittest

from elftools.elf.elffile import ELFFile

from material import support

TOOLS = all(shutil.which(name) for name in ("make", "riscv64-unknown-elf-as", "riscv64-unknown-elf-ld"))


def segments(path):
    """Entry, and address, size, flags and bytes of each segment that is loaded."""
    with open(path, "rb") as file:
        elf = ELFFile(file)
        return elf["e_entry"], [(each["p_vaddr"], each["p_memsz"], each["p_flags"], each.data()) for each in elf.iter_segments("PT_LOAD")]


@unittest.skipUnless(TOOLS, "no make, riscv64-unknown-elf-as or riscv64-unknown-elf-ld (Debian: make, binutils-riscv64-unknown-elf)")
class Gadgets(unittest.TestCase):
    def test_stored_images(self):
        with tempfile.TemporaryDirectory() as folder:
            subprocess.run(["make", "-C", support.example(""), f"BUILD={folder}"], check=True, capture_output=True)
            names = sorted(os.path.basename(path) for path in glob.glob(os.path.join(folder, "*.elf")))
            self.assertIn("bounds_check.elf", names)
            self.assertEqual(sorted(os.path.basename(path) for path in glob.glob(support.example("*.elf"))), names)
            for name in names:
                self.assertEqual(segments(os.path.join(folder, name)), segments(support.example(name)), name)


if __name__ == "__main__":
    unittest.main()
