# The run ends by a trap before the secret is used, as that of a program with a mistake in it: one run proves of every secret that it ends so,
# and says nothing of what the program was written for.
    .text
    .globl _start
_start:
    la   a1, greeting_at
    lw   a1, 0(a1)
    lbu  a2, 0(a1)          # there is no memory at 0: the pointer was never set
    li   a0, 1
    li   a7, 64
    ecall                   # would put the greeting out
    la   a1, secret
    lbu  a0, 0(a1)
    la   a4, places
    add  a4, a4, a0
    lbu  a5, 0(a4)          # the line that it would bring would tell the secret
    li   a0, 0
    li   a7, 93
    ecall

    .data
    .globl secret
    .type secret, @object
    .size secret, 1
secret:
    .byte 0x11
    .balign 4
greeting_at:
    .word 0

    .bss
    .balign 64
places:
    .space 256
