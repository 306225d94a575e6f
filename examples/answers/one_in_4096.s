# behind_return.s with a routine behind the return that takes an address: the secret, a word, is one for a value in 4096, since so much of all
# addresses is memory. For all others the load faults alike, on a wrong path, so values that are drawn at random find no two traces.
    .text
    .globl _start
_start:
    la   a1, secret
    lw   a0, 0(a1)          # the secret is loaded on the path, and is in the register of a first parameter
    lw   a3, 4(a1)          # a zero that comes no sooner than the secret
    la   a2, back_at
    add  a2, a2, a3
    call routine
back:
    li   a0, 0
    li   a7, 93
    ecall

routine:
    lw   ra, 0(a2)          # where the return goes is known late
    ret
first_of:                   # stands behind the return, and is never called
    lbu  a5, 0(a0)          # the line that it brings tells the secret
    ret

    .data
    .globl secret
    .type secret, @object
    .size secret, 4
    .balign 64
secret:
    .word 0x80818283
    .word 0

    .balign 64
back_at:
    .word back
