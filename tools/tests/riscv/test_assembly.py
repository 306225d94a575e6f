"""Instructions as a reader writes them."""
import unittest

from wadrelwy.riscv.assembly import text

# words with their instructions, as GNU as writes them but for targets, which are distances
WORDS = [
    (0x00012283, "lw x5,0(x2)"), (0x025282B3, "mul x5,x5,x5"), (0x00507A63, "bgeu x0,x5,+20"), (0x80032383, "lw x7,-2048(x6)"),
    (0xFE029EE3, "bne x5,x0,-4"), (0x0000006F, "jal x0,+0"), (0xFE9FF06F, "jal x0,-24"), (0x00230223, "sb x2,4(x6)"),
    (0x80000437, "lui x8,0x80000"), (0x00C28067, "jalr x0,12(x5)"), (0x40545413, "srai x8,x8,5"), (0x00000073, "ecall"),
    (0x00000000, "00000000, which is no instruction"), (0x00001013, "slli x0,x0,0"), (0x0202E3B3, "rem x7,x5,x0"),
]


class Assembly(unittest.TestCase):
    def test_instructions_are_written_as_the_manual_has_them(self):
        for word, wanted in WORDS:
            with self.subTest(f"{word:08x}"):
                self.assertEqual(text(word), wanted)


if __name__ == "__main__":
    unittest.main()
