"""Words, names, immediates and values (docs/instruction-set.md, "Decoding" and "Values")."""
import random
import re
import shutil
import struct
import subprocess
import tempfile
import unittest

from wadrelwy.riscv.arithmetic import takes, value_of
from wadrelwy.riscv.operation import IMMEDIATES, REGISTERS, SHIFTS, decode, division_time, effect, extend

OBJDUMP = shutil.which("riscv64-unknown-elf-objdump")
LEAST, ONES = 0x80000000, 0xffffffff

# Name, first and second operand, value: by the formulas of the manual.
VALUE_CASES = [
    ("add", ONES, 2, 1), ("sub", 1, 2, ONES), ("sll", 3, 33, 6), ("srl", LEAST, 31, 1), ("sra", LEAST, 31, ONES),
    ("slt", ONES, 0, 1), ("sltu", ONES, 0, 0), ("xor", 5, 6, 3), ("or", 5, 6, 7), ("and", 5, 6, 4),
    ("mul", LEAST, 3, LEAST), ("mulh", LEAST, LEAST, 0x40000000), ("mulhsu", LEAST, LEAST, 0xc0000000),
    ("mulhu", LEAST, LEAST, 0x40000000), ("mulhsu", ONES, ONES, ONES), ("mulhu", ONES, ONES, 0xfffffffe),
    ("div", 0xfffffff9, 2, 0xfffffffd), ("rem", 0xfffffff9, 2, ONES), ("div", 7, 0, ONES), ("rem", 7, 0, 7),
    ("div", LEAST, ONES, LEAST), ("rem", LEAST, ONES, 0), ("divu", LEAST, ONES, 0), ("remu", LEAST, ONES, LEAST),
    ("divu", 7, 0, ONES), ("remu", 7, 0, 7), ("div", 7, 0xfffffffe, 0xfffffffd), ("rem", 7, 0xfffffffe, 1),
    ("sltiu", 5, ONES, 1), ("slti", 5, ONES, 0), ("srai", 0xfffffff0, 2, 0xfffffffc),
]

# Words that are no instruction: a funct3 or funct7 that no row of the table has, and bits that ECALL hasn't.
ILLEGAL = [0, ONES, 0x00002063, 0x00003003, 0x00003023, 0x02001013, 0x40001013, 0x02005013, 0x04000033, 0x40001033, 0x0000100f, 0x000000f3,
           0x00001067, 0x10500073]


class Values(unittest.TestCase):
    def test_values(self):
        for name, a, b, value in VALUE_CASES:
            self.assertEqual(value_of(name, a, b), value, (name, hex(a), hex(b)))

    def test_branches(self):
        for name, taken in [("beq", 0), ("bne", 1), ("blt", 1), ("bge", 0), ("bltu", 0), ("bgeu", 1)]:
            self.assertEqual(takes(name, ONES, 0), bool(taken), name)

    def test_division_times(self):
        """3 cycles, and one for each binary digit of the dividend's magnitude."""
        for name, dividend, cycles in [("div", 0, 3), ("divu", 1, 4), ("rem", ONES, 4), ("remu", ONES, 35), ("div", LEAST, 35)]:
            self.assertEqual(division_time(name, dividend), cycles, (name, hex(dividend)))

    def test_loaded_bytes(self):
        for name, data, value in [("lb", b"\x80", 0xffffff80), ("lbu", b"\x80", 0x80), ("lh", b"\0\x80", 0xffff8000),
                                  ("lhu", b"\0\x80", 0x8000), ("lw", b"\1\2\3\4", 0x04030201)]:
            self.assertEqual(extend(name, data), value, name)

    def test_jumps(self):
        """JALR clears bit 0; a target that is no multiple of 4 is misaligned; addresses are modulo 2^32."""
        jalr, jal = decode(0x00308067), decode(0x0080006f)
        self.assertEqual(effect(jalr, 0x100, 0x202)[:2], (0x104, 0x204))
        self.assertTrue(effect(jalr, 0x100, 0x203).misaligned)
        self.assertEqual(effect(jal, 0xfffffffc).next, 4)


class Decoding(unittest.TestCase):
    def test_illegal_words(self):
        for word in ILLEGAL:
            self.assertEqual(decode(word).name, "illegal", hex(word))

    @unittest.skipIf(OBJDUMP is None, "no riscv64-unknown-elf-objdump (Debian: binutils-riscv64-unknown-elf)")
    def test_against_objdump(self):
        """Names and operands of words drawn for each form, as GNU objdump tells them."""
        drawn = random.Random(1)
        opcodes = [0x37, 0x17, 0x6f, 0x67, 0x63, 0x03, 0x23, 0x13, 0x33]
        found = [word for word in (drawn.getrandbits(25) << 7 | opcode for opcode in opcodes for _ in range(4000))
                 if decode(word).name not in ("illegal", "jal")]
        found += [word for word in (drawn.choice([0, 0x20, 1]) << 25 | drawn.getrandbits(18) << 7 | drawn.choice([0x13, 0x33])
                                    for _ in range(3000)) if decode(word).name != "illegal"]
        names = {decode(word).name for word in found}
        self.assertLessEqual({*IMMEDIATES.values(), *SHIFTS.values(), *REGISTERS.values()}, names)
        told = list(disassembled(found))
        self.assertEqual(len(told), len(found))
        for word, text in zip(found, told):
            self.assertEqual(written(word), text, hex(word))


def disassembled(numbers):
    with tempfile.NamedTemporaryFile(suffix=".bin") as file:
        file.write(struct.pack(f"<{len(numbers)}I", *numbers))
        file.flush()
        text = subprocess.run([OBJDUMP, "-D", "-z", "-b", "binary", "-m", "riscv:rv32", "-M", "no-aliases,numeric", file.name],
                              capture_output=True, text=True, check=True).stdout
    lines = re.findall(r"^\s+([0-9a-f]+):\s+[0-9a-f]{8}\s+(\S+)\s+([^#<\n]*)", text, re.MULTILINE)
    for address, name, operands in lines:
        operands = operands.strip().split(",")
        if name.startswith("b"):
            operands[-1] = str(int(operands[-1], 16) - int(address, 16) & ONES)
        yield " ".join([name, *(str(int(each, 16)) if each.startswith("0x") else each for each in operands)])


def written(word):
    """An operation in the form of `disassembled`."""
    (kind, sources, rd), name, imm = decode(word)
    sources = [f"x{source}" for source in sources]
    if kind in ("load", "store"):
        return f"{name} {sources[1] if kind == 'store' else f'x{rd}'} {imm}({sources[0]})"
    if kind == "branch":
        return f"{name} {' '.join(sources)} {imm & ONES}"
    if name == "jalr":
        return f"{name} x{rd} {imm}({sources[0]})"
    if name in ("lui", "auipc"):
        return f"{name} x{rd} {imm >> 12}"
    return " ".join([name, f"x{rd}", *sources, *([str(imm)] if len(sources) == 1 else [])])


if __name__ == "__main__":
    unittest.main()
