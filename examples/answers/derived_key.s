# The key is derived of a seed before it is used: what stands in the key's place as the image is loaded is overwritten before anything reads it.
# Asked of `secret`, the key, one run proves its trace for every value of bytes that nobody reads. Asked of `seed` it shows.
    .text
    .globl _start
_start:
    la   a1, seed
    lbu  a0, 0(a1)
    xori a0, a0, 0x5a
    la   a2, secret
    sb   a0, 0(a2)          # the key, derived
    lbu  a3, 0(a2)          # and used: the line that it brings tells it
    la   a4, places
    add  a4, a4, a3
    lbu  a5, 0(a4)
    li   a0, 0
    li   a7, 93
    ecall

    .data
    .globl seed
    .type seed, @object
    .size seed, 1
seed:
    .byte 0x11
    .globl secret
    .type secret, @object
    .size secret, 1
secret:
    .byte 0

    .bss
    .balign 64
places:
    .space 256
