"""Values of a secret, to be held against a machine: drawn ones; and such as show what hardly a drawn one does, since a word is an address within
memory, or is what it is compared with."""
import itertools
import random

from .hart import Hart

# so many times a branch is looked at on the path, and so many values are made of its operands
MOST_TIMES, MOST_OF_OPERANDS = 64, 512
WORD = 4


def drawn(own, draws, seed):
    """Values of as many bytes as the secret's own. The values of so many draws are the first of those of more draws. Where there are no more values
    than draws, each comes behind those."""
    found, all_there_are = random.Random(seed), 256 ** len(own)
    values = [found.randbytes(len(own)) for _ in range(min(draws, all_there_are - 1))]
    return values + ([bytes(value) for value in itertools.product(range(256), repeat=len(own))] if all_there_are <= draws else [])


def changed(own):
    """The secret's own value with one byte changed, at each place."""
    return [with_part(own, at, bytes([own[at] ^ 0xff])) for at in range(len(own))]


def with_part(own, at, part):
    """A value with other bytes from some place on, as far as there are."""
    return (own[:at] + part + own[at + len(part):])[:len(own)]


def telling(own, base, size, seed):
    """Zeros and ones; all words addresses within memory; and each word alone such an address, beside the secret's own and beside zeros."""
    places, found = range(0, len(own), WORD), random.Random(seed)

    def address():
        return (base + found.randrange(size // WORD) * WORD).to_bytes(WORD, "little")
    values = [bytes(len(own)), b"\xff" * len(own)]
    if len(own) >= WORD:
        values += [b"".join(address() for _ in places)[:len(own)] for _ in range(4)]
        values += [with_part(rest, at, address()) for at in places for rest in (own, bytes(len(own)))]
    return values


def of_operands(own, operands):
    """Values with what a branch compares in the place of a byte or a word, and with the numbers beside it."""
    values = []
    for operand in operands:
        for number in (operand, operand + 1, operand - 1):
            word = (number & 0xffffffff).to_bytes(WORD, "little")
            values += [with_part(own, at, word[:1]) for at in range(len(own))] + [with_part(own, at, word) for at in range(0, len(own), WORD)]
    return values[:MOST_OF_OPERANDS]


def operands_at(image, pc, steps):
    """The values of both operands of a branch on the path, the first times that it is there."""
    hart, found, times = Hart(image), {}, 0
    for _ in range(steps):
        if hart.end is not None or times == MOST_TIMES:
            break
        here = hart.pc
        registers = list(hart.registers) if here == pc else ()
        decoded = hart.advance()
        if here == pc and decoded is not None:
            times += 1
            found |= dict.fromkeys((registers[decoded.one], registers[decoded.two]))
    return list(found)


def others(own, values):
    """Those values that aren't the secret's own, each once, in their order."""
    return [value for value in dict.fromkeys(values) if value != own]


def odds(count, size):
    """What it says that none of so many drawn values is another: with 95 in 100, by the rule of three."""
    share = f"with 95 in 100 fewer than 1 value in {count // 3} is" if count >= 6 else "too few to say how many are"
    return (f"{share}; one byte that is compared is met by 1 value in 256, an address within this memory by 1 in {max(1, (1 << 32) // size)}, and "
            f"--draws N looks further")
