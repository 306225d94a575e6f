# A secret shows on a wrong path alone: behind a return that is predicted to go on behind itself. The path looks nothing up.
    .text
    .globl _start
_start:
    la   a1, secret
    lbu  a0, 0(a1)          # the secret is loaded on the path, and is in the register of a first parameter
    lw   a3, 4(a1)          # a zero that comes no sooner than the secret
    la   a2, back_at
    add  a2, a2, a3
    call routine
back:
    li   a0, 0
    li   a7, 93
    ecall

routine:
    lw   ra, 0(a2)          # where the return goes is known late
    ret
look_up:                    # stands behind the return, and is never called
    la   a4, places
    add  a4, a4, a0
    lbu  a5, 0(a4)          # the line that it brings tells the secret
    ret

    .data
    .globl secret
    .type secret, @object
    .size secret, 1
    .balign 64
secret:
    .byte 0x11
    .balign 4
    .word 0

    .balign 64
back_at:
    .word back

    .bss
    .balign 64
places:
    .space 256
