"""Code that sets all registers and goes on at a pc."""
from wadrelwy import Fault
from wadrelwy.riscv.encoding import addi, jal, lui

# `lui` and `addi` for each of x1 to x31, and a jump
STEPS = 63
SIZE = 4 * STEPS
# how far a `jal` reaches, in bytes: back, and forth
BACK, FORTH = -(1 << 20), (1 << 20) - 2


def setting(register: int, value: int) -> list[int]:
    """The two words after which a register has a value: `addi` adds a signed number of 12 bits to what `lui` left."""
    low = (value & 0xFFF ^ 0x800) - 0x800
    return [lui(register, value - low & 0xFFFFFFFF), addi(register, register, low)]


def reaches(address: int, pc: int) -> bool:
    """Whether the jump at the end of a stub at this address reaches the pc."""
    return BACK <= pc - (address + SIZE - 4) <= FORTH


def stub(address: int, registers: list[int], pc: int) -> bytes:
    """The bytes of a stub at this address, after which x1 to x31 have these values and the pc is this."""
    if not reaches(address, pc):
        raise Fault(f"a jump from {address:08x} doesn't reach the pc {pc:08x}: it lies more than 1 MiB away")
    words = [word for register in range(1, 32) for word in setting(register, registers[register])]
    words.append(jal(0, pc - (address + SIZE - 4)))
    return b"".join(word.to_bytes(4, "little") for word in words)
