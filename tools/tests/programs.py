"""Small programs that bring the machine to each of its rules, as words."""
from wadrelwy.riscv.encoding import add, addi, blt, branch, div, immediate_form, jal, lw, mul, store, sw, xor

ECALL, EBREAK, ILLEGAL, FENCE = 0x00000073, 0x00100073, 0, 0x0FF0000F
EXIT = [addi(17, 0, 93), ECALL]


def lbu(rd, offset, rs1):
    return immediate_form(0x03, 4, rd, rs1, offset)


def sh(rs2, offset, rs1):
    return store(1, rs2, offset, rs1)


def jalr(rd, rs1, offset):
    return immediate_form(0x67, 0, rd, rs1, offset)


def bgeu(rs1, rs2, offset):
    return branch(7, rs1, rs2, offset)


def beq(rs1, rs2, offset):
    return branch(0, rs1, rs2, offset)


SLOW = div(9, 2, 2)
PROGRAMS = {
    "forwarding": [SLOW, addi(5, 0, -1), sh(5, 0, 2), lw(6, 0, 2), sw(5, 4, 2), lw(7, 4, 2), *EXIT],
    "wrong path misses": [lw(5, 0, 2), mul(5, 5, 5), bgeu(0, 5, 16), lw(6, -16, 2), lw(6, -32, 2), lw(6, -48, 2), lw(7, -64, 2),
                          *EXIT],
    "branch on a loaded value": [addi(5, 0, 1), sw(5, 0, 2), lw(5, 0, 2), mul(5, 5, 5), bgeu(0, 5, 16), lbu(6, 8, 2),
                                 beq(6, 0, 8), addi(7, 0, 1), *EXIT],
    "calls": [addi(17, 0, 64), addi(10, 0, 1), addi(11, 2, 0), addi(12, 0, 5), ECALL, addi(10, 0, 9), ECALL, FENCE, *EXIT],
    "divisions": [addi(5, 0, -1), div(6, 5, 5), div(7, 2, 5), div(6, 6, 7), div(7, 0, 0), *EXIT],
    "division on a wrong path": [lw(5, 0, 2), div(6, 2, 2), bgeu(0, 5, 16), div(7, 2, 2), div(7, 7, 2), addi(7, 0, 1),
                                 div(6, 2, 2), *EXIT],
    "multiplications": [mul(5, 2, 2), mul(6, 2, 2), mul(7, 5, 6), mul(7, 7, 7), *EXIT],
    "stores": [sw(2, -4 * place, 2) for place in range(12)] + EXIT,
    "loads": [lw(5 + place % 3, -16 * place, 2) for place in range(12)] + [lw(5, 0, 2), lw(6, -16, 2), *EXIT],
    "store to a loaded address": [sw(2, 8, 2), SLOW, lw(5, 8, 2), mul(6, 5, 5), bgeu(0, 6, 20), lw(5, 8, 2), sw(6, 0, 5),
                                  lw(7, 0, 2), lw(6, 0, 7), *EXIT],
    "load that faults": [SLOW, lw(5, 0, 0), lbu(6, 8, 2), xor(6, 6, 2), lw(7, 0, 6), *EXIT],
    "store that faults": [SLOW, sw(5, 0, 0), lbu(6, 8, 2), xor(6, 6, 2), lw(7, 0, 6), div(7, 6, 6), beq(6, 0, 8), *EXIT],
    "store that faults on a wrong path": [lw(5, 0, 2), mul(5, 5, 5), bgeu(0, 5, 28), sw(5, 0, 0), lbu(6, 8, 2), xor(6, 6, 2),
                                          lw(7, 0, 6), div(7, 6, 6), addi(7, 0, 1), *EXIT],
    "store whose data comes late": [div(5, 2, 2), sw(5, 0, 2), lw(6, 8, 2), lw(7, 0, 2), *EXIT],
    "store to a loaded address without data": [lw(5, 0, 2), mul(5, 5, 5), bgeu(0, 5, 20), lbu(6, 8, 2), add(6, 6, 2), sw(5, 4, 6),
                                               lw(7, -16, 2), *EXIT],
    "stores whose addresses come late": [mul(6, 0, 0), xor(6, 6, 2), sw(2, 0, 6), sw(2, 4, 6), sw(9, 8, 2), lw(7, 4, 2), *EXIT],
    "load that passes a store": [mul(5, 0, 0), add(5, 5, 2), sw(2, 0, 5), lw(6, 0, 2), *EXIT],
    "store to a loaded address, passed": [SLOW, lw(5, 0, 2), mul(5, 5, 5), bgeu(0, 5, 24), lbu(6, 8, 2), add(6, 6, 2), sw(5, 0, 6), lw(7, 4, 2),
                                          mul(7, 7, 7), *EXIT],
    "stores that are passed in turn": [mul(5, 0, 0), add(5, 5, 2), sw(2, 0, 5), sw(9, 4, 5), lw(6, 4, 2), lw(7, 0, 2), mul(7, 7, 6), sw(7, 8, 2),
                                       lbu(6, 8, 2), *EXIT],
    "stores to loaded addresses, cleared in turn": [lw(5, 0, 2), mul(5, 5, 5), blt(0, 5, 8), lbu(6, 8, 2), add(6, 6, 2),
                                                    *[sw(2, 4 * place, 6) for place in range(4)], *EXIT],
    "loop": [addi(5, 0, 20), lw(6, 0, 2), mul(6, 6, 6), sw(6, 4, 2), addi(5, 5, -1), blt(0, 5, -16), *EXIT],
    "jumps through a register": [addi(6, 0, 6), jal(1, 16), addi(6, 6, -1), blt(0, 6, -8), jal(0, 12), addi(7, 7, 1),
                                 jalr(0, 1, 0), *EXIT],
    "jump to a misaligned address": [lw(5, 0, 2), jalr(0, 5, 2), *EXIT],
    "branch to a misaligned address": [lw(5, 0, 2), beq(5, 0, 10), *EXIT],
    "jal to a misaligned address": [SLOW, jal(0, 6), *EXIT],
    "illegal word": [SLOW, ILLEGAL],
    "breakpoint": [SLOW, EBREAK],
    "end of code": [SLOW],
    "endless jump": [jal(0, 0)],
    "accesses across lines": [SLOW, lw(5, -2, 2), sw(5, -2, 2), lw(6, -1, 2), lbu(7, -3, 2), lw(7, -18, 2), lw(6, -35, 2), lw(5, -62, 2),
                              sh(6, -17, 2), lw(5, -33, 2), *EXIT],
}


def behind_a_store(base):
    """A division by what a load gave behind a branch, and in front of it a load that waits for the store to an address from this register."""
    return [lw(5, 0, 2), mul(5, 5, 5), blt(0, 5, 8), lw(6, -16, 2), add(28, base, 2), sw(0, 0, 28), lw(29, 4, 2), div(7, 2, 6), *EXIT]


def sharing(behind):
    """A division by what a load gave, entry 4; and, so many entries behind it, a load whose address another load gave. Each stands behind a branch
    of its own, and the later branch needs the quotient."""
    first = [lw(5, 0, 2), mul(5, 5, 5), blt(0, 5, 8), lbu(6, 8, 2), div(7, 2, 6), blt(0, 7, 8)]
    address = [mul(28, 0, 0), mul(28, 28, 28), add(28, 28, 2), addi(28, 28, 0), addi(28, 28, 0), addi(28, 28, 0), lbu(28, -64, 28)]
    return [*first, *address, *[addi(30, 0, 1)] * (behind - 10), add(28, 28, 2), lw(29, 0, 28), *EXIT]


# for what a cycle counts in which the defence keeps an entry: where an older one waits for a store of known address, or of an address that comes
# late; where all slots are filled in some of these cycles; and where another entry takes the place
KEPT = {
    "behind a known store": behind_a_store(0),
    "behind a late store": behind_a_store(5),
    "filled slots": [lw(5, 0, 2), addi(28, 0, 1), addi(29, 0, 1), addi(30, 0, 1), mul(5, 5, 5), blt(0, 5, 8), lw(6, 4, 2), div(7, 2, 6), *EXIT],
    "a shared place": sharing(64),
}
