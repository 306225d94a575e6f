# A branch that is taken, whatever the secret is.
# The trace is one for all secrets, and shown is that it may not be: docs/secrets.md, "What stays conservative".
    .text
    .globl _start
_start:
    la   a2, secret
    lbu  a0, 0(a2)
    bgeu a0, zero, on
on:
    li   a0, 0
    li   a7, 93
    ecall

    .data
    .globl secret
    .type secret, @object
    .size secret, 1
    .balign 4
secret:
    .byte 0x11

    .bss
    .balign 64
places:
    .space 512
