"""Kinds and registers, from the table of docs/instruction-set.md, "Decoding", and docs/machine.md, "Kinds"."""
import unittest

from wadrelwy.riscv.kinds import instruction_of

# the word, its kind, what it reads, what it writes. The words are those that binutils assembles from the text beside.
TABLE = [
    (0x123452B7, "arithmetic", (), 5),          # lui x5,0x12345
    (0x00000297, "arithmetic", (), 5),          # auipc x5,0
    (0x008000EF, "jal", (), 1),                 # jal x1,.+8
    (0x0060006F, "stop", (), 0),                # jal x0,.+6: its target is no multiple of 4
    (0x00008067, "jalr", (1,), 0),              # jalr x0,0(x1)
    (0x00009067, "stop", (), 0),                # funct3 1 is no JALR
    (0x00628463, "branch", (5, 6), 0),          # beq x5,x6,.+8
    (0x00507A63, "branch", (0, 5), 0),          # bgeu x0,x5,.+20
    (0x0062A463, "stop", (), 0),                # funct3 2 is no branch
    (0x00814303, "load", (2,), 6),              # lbu x6,8(x2)
    (0x00013303, "stop", (), 0),                # funct3 3 is no load
    (0x80032383, "load", (6,), 7),              # lw x7,-2048(x6)
    (0x00230223, "store", (6, 2), 0),           # sb x2,4(x6)
    (0x00233023, "stop", (), 0),                # funct3 3 is no store
    (0x05D00893, "arithmetic", (0,), 17),       # addi x17,x0,93
    (0x00431313, "arithmetic", (6,), 6),        # slli x6,x6,4
    (0x40431313, "stop", (), 0),                # a left shift with bit 30
    (0x40435313, "arithmetic", (6,), 6),        # srai x6,x6,4
    (0x20435313, "stop", (), 0),                # a right shift with bit 29
    (0x00230333, "arithmetic", (6, 2), 6),      # add x6,x6,x2
    (0x40230333, "arithmetic", (6, 2), 6),      # sub x6,x6,x2
    (0x40231333, "stop", (), 0),                # SLL with bit 30
    (0x025282B3, "multiplication", (5, 5), 5),  # mul x5,x5,x5
    (0x025292B3, "multiplication", (5, 5), 5),  # mulh x5,x5,x5
    (0x026343B3, "division", (6, 6), 7),        # div x7,x6,x6
    (0x026373B3, "division", (6, 6), 7),        # remu x7,x6,x6
    (0x0FF0000F, "arithmetic", (), 0),          # fence
    (0x0000100F, "stop", (), 0),                # fence.i
    (0x00000073, "call", (), 0),                # ecall
    (0x00100073, "stop", (), 0),                # ebreak
    (0x00000000, "stop", (), 0),
    (0xFFFFFFFF, "stop", (), 0),
    (0x00000013 ^ 1, "stop", (), 0),            # a compressed form
    (None, "stop", (), 0),                      # outside code
]


class Instructions(unittest.TestCase):
    def test_table(self):
        for word, kind, sources, destination in TABLE:
            with self.subTest(word=word and hex(word)):
                self.assertEqual(tuple(instruction_of(word)), (kind, sources, destination))

    def test_what_is_done_at_once_and_what_is_resolved(self):
        self.assertTrue(instruction_of(0x00000073).at_once and instruction_of(0).at_once)
        self.assertFalse(instruction_of(0x00000013).at_once)
        self.assertTrue(instruction_of(0x00008067).is_control and instruction_of(0x00628463).is_control)
        self.assertFalse(instruction_of(0x008000EF).is_control)
