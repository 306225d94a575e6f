# Fault shadow: a load that faults, and behind it a secret that makes an address.
# docs/traces.md. Memory is that of core.toml; x2 points to the data.
    .text
    .globl _start
_start:
    div  x9, x2, x2         # slow: what follows stays in flight
    lw   x5, 0(x0)          # outside memory
    lbu  x6, 8(x2)          # the secret
    slli x6, x6, 4
    add  x6, x6, x2
    lw   x7, -2048(x6)

    .data
    .word 0                # the bound
    .word 0
    .byte 0x11             # the secret
