# Speculative store bypass: a store whose address comes late writes a new place; a load passes it, finds the old one, which is that of
# the secret, and the secret makes an address. Needs loads that pass stores: core_passing.toml.
# docs/machine.md, "Clear". Memory is that of core.toml; x2 points to the data.
    .text
    .globl _start
_start:
    addi x8, x0, 1
    div  x5, x2, x8         # x2, late
    sw   x8, 0(x5)          # the new place, 1
    lw   x6, 0(x2)          # the old one, 0, where it passes the store
    add  x6, x6, x2
    lbu  x7, 8(x6)          # then this is the secret, and else the byte behind it
    slli x7, x7, 4
    add  x7, x7, x2
    lw   x9, -2048(x7)      # its line would tell the secret
    addi x17, x0, 93
    ecall

    .data
    .word 0                # the old place
    .word 0
    .byte 0x11             # the secret
