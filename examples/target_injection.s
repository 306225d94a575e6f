# A jump to an address made from a secret, behind a branch that is passed over by prediction.
# docs/traces.md. Memory is that of core.toml; x2 points to the data.
    .text
    .globl _start
_start:
    lw   x5, 0(x2)
    mul  x5, x5, x5
    bgeu x0, x5, .+16
    lbu  x6, 8(x2)          # the secret
    slli x6, x6, 4
    jalr x0, 0(x6)
    addi x17, x0, 93
    ecall

    .data
    .word 0                # the bound
    .word 0
    .byte 0x11             # the secret
