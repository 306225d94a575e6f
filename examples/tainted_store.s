# A store to an address made from a secret, and a load that it covers or not.
# docs/traces.md. Memory is that of core.toml; x2 points to the data.
    .text
    .globl _start
_start:
    lw   x5, 0(x2)
    mul  x5, x5, x5
    bgeu x0, x5, .+20
    lbu  x6, 8(x2)          # the secret
    add  x6, x6, x2
    sb   x2, 4(x6)          # to x2 + 4 where the secret is 0
    lbu  x7, 4(x2)
    addi x17, x0, 93
    ecall

    .data
    .word 0                # the bound
    .word 0
    .byte 0x00             # the secret
