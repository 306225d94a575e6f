"""The image that a seed and a number of blocks generate (docs/formats.md, "Generated images")."""
import struct

from wadrelwy.riscv.encoding import ECALL, add, addi, beq, blt, div, jal, lw, mul, sw, xor

BASE = 0x00010000
HEADERS = 52 + 32


def draws(seed):
    """The generator's numbers, one after another."""
    state = seed % 2**31
    while True:
        state = (1103515245 * state + 12345) % 2**31
        yield state // 65536


def block(numbers):
    """A block: four draws make two instructions."""
    form, offset = next(numbers) % 6, 4 * (next(numbers) % 256)
    d, e = 5 + next(numbers) % 3, 5 + next(numbers) % 3
    return [
        [addi(d, e, offset), xor(e, e, d)],
        [sw(d, offset, 8), lw(e, offset, 8)],
        [lw(d, offset, 8), add(e, e, d)],
        [mul(d, d, e), addi(e, e, 1)],
        [div(d, d, e), addi(d, d, offset)],
        [blt(d, e, 8), addi(d, d, 1)],
    ][form]


def program(seed, blocks):
    """The words: the blocks four times, and then an exit."""
    numbers = draws(seed)
    body = [word for _ in range(blocks) for word in block(numbers)]
    behind = [addi(9, 9, -1), beq(9, 0, 8), jal(0, -(8 * blocks + 8)), addi(17, 0, 93), ECALL]
    return [addi(8, 2, -1024), addi(9, 0, 4), *body, *behind]


def image(words):
    """The file of an image whose only segment has these words, at the base."""
    size = 4 * len(words)
    identification = b"\x7fELF" + bytes([1, 1, 1]) + bytes(9)
    header = identification + struct.pack("<HHIIIIIHHHHHH", 2, 243, 1, BASE, 52, 0, 0, 52, 32, 1, 0, 0, 0)
    load = struct.pack("<8I", 1, HEADERS, BASE, BASE, size, size, 5, 4)
    return header + load + struct.pack(f"<{len(words)}I", *words)


def generated_image(seed, blocks):
    """The image that `bench --seed SEED --blocks BLOCKS` runs."""
    return image(program(seed, blocks))
