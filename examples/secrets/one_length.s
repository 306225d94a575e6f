# A dividend of nine bits, whatever the secret is: a division takes the time of its dividend's length.
# The trace is one for all secrets, and shown is that it may not be: docs/secrets.md, "What stays conservative".
    .text
    .globl _start
_start:
    la   a2, secret
    lbu  a0, 0(a2)
    addi a0, a0, 256
    li   a1, 3
    divu a1, a0, a1
    li   a0, 0
    li   a7, 93
    ecall

    .data
    .globl secret
    .type secret, @object
    .size secret, 1
    .balign 4
secret:
    .byte 0x11

    .bss
    .balign 64
places:
    .space 512
