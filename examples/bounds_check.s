# Bounds check bypass: a branch on a slow bound is passed over by prediction, and a secret makes an address behind it.
# docs/traces.md. Memory is that of core.toml; x2 points to the data.
    .text
    .globl _start
_start:
    lw   x5, 0(x2)          # the bound, 0: it comes late
    mul  x5, x5, x5
    bgeu x0, x5, .+20       # taken, once x5 is there
    lbu  x6, 8(x2)          # the secret
    slli x6, x6, 4
    add  x6, x6, x2
    lw   x7, -2048(x6)      # its line would tell the secret
    addi x17, x0, 93
    ecall

    .data
    .word 0                # the bound
    .word 0
    .ifndef SECRET
    .set SECRET, 0x11
    .endif
    .byte SECRET           # the secret
