# An arithmetic shift to the right by eight bits drops the byte that is secret, and keeps three that are public.
# The trace is one for all secrets, and shown is that it may not be: docs/secrets.md, "What stays conservative".
    .text
    .globl _start
_start:
    la   a2, secret
    lw   a0, 0(a2)
    srai a1, a0, 8
    la   a3, places
    add  a3, a3, a1
    lbu  a4, 0(a3)          # the line that it brings would tell a1
    li   a0, 0
    li   a7, 93
    ecall

    .data
    .globl secret
    .type secret, @object
    .size secret, 1
    .balign 4
secret:
    .byte 0x11              # a byte of a word whose others are public
    .byte 1, 0, 0

    .bss
    .balign 64
places:
    .space 512
