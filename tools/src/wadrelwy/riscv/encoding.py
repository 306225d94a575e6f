"""The words of instructions, by the forms of docs/instruction-set.md, "Decoding"."""


def register_form(opcode: int, funct3: int, funct7: int, rd: int, rs1: int, rs2: int) -> int:
    return funct7 << 25 | rs2 << 20 | rs1 << 15 | funct3 << 12 | rd << 7 | opcode


def immediate_form(opcode: int, funct3: int, rd: int, rs1: int, immediate: int) -> int:
    return (immediate & 0xFFF) << 20 | rs1 << 15 | funct3 << 12 | rd << 7 | opcode


def addi(rd: int, rs1: int, immediate: int) -> int:
    return immediate_form(0x13, 0, rd, rs1, immediate)


def lui(rd: int, value: int) -> int:
    """The word that sets a register to the upper 20 bits of a value, and its lower 12 to 0."""
    return value & 0xFFFFF000 | rd << 7 | 0x37


def add(rd: int, rs1: int, rs2: int) -> int:
    return register_form(0x33, 0, 0, rd, rs1, rs2)


def xor(rd: int, rs1: int, rs2: int) -> int:
    return register_form(0x33, 4, 0, rd, rs1, rs2)


def mul(rd: int, rs1: int, rs2: int) -> int:
    return register_form(0x33, 0, 1, rd, rs1, rs2)


def div(rd: int, rs1: int, rs2: int) -> int:
    return register_form(0x33, 4, 1, rd, rs1, rs2)


def lw(rd: int, offset: int, rs1: int) -> int:
    return immediate_form(0x03, 2, rd, rs1, offset)


def store(funct3: int, rs2: int, offset: int, rs1: int) -> int:
    return (offset >> 5 & 0x7F) << 25 | rs2 << 20 | rs1 << 15 | funct3 << 12 | (offset & 31) << 7 | 0x23


def sw(rs2: int, offset: int, rs1: int) -> int:
    return store(2, rs2, offset, rs1)


def branch(funct3: int, rs1: int, rs2: int, offset: int) -> int:
    return ((offset >> 12 & 1) << 31 | (offset >> 5 & 0x3F) << 25 | rs2 << 20 | rs1 << 15 | funct3 << 12
            | (offset >> 1 & 15) << 8 | (offset >> 11 & 1) << 7 | 0x63)


def beq(rs1: int, rs2: int, offset: int) -> int:
    return branch(0, rs1, rs2, offset)


def blt(rs1: int, rs2: int, offset: int) -> int:
    return branch(4, rs1, rs2, offset)


def jal(rd: int, offset: int) -> int:
    return ((offset >> 20 & 1) << 31 | (offset >> 1 & 0x3FF) << 21 | (offset >> 11 & 1) << 20
            | (offset >> 12 & 0xFF) << 12 | rd << 7 | 0x6F)


ECALL = 0x00000073
