"""Random programs whose stores have late addresses and share bytes with loads, and random descriptions of version 2 to run them under."""
import support
from programs import EXIT, lbu, sh
from wadrelwy.view.description import DEFENCES
from wadrelwy.riscv.encoding import add, addi, branch, div, immediate_form, jal, lw, mul, sw

REGISTERS = [5, 6, 7, 9, 10, 11]
COUNTER = 12
OTHERS = [{}, {"history": 3, "returns": 2}, {"second_sets": 2, "second_ways": 2, "second_latency": 4, "prefetch": 1, "miss_latency": 20}]


def chunk(draw):
    """A few words. x2 points to the data; an address is made of a register, or known at once, or outside memory."""
    register = lambda: draw.choice(REGISTERS)
    place, other = register(), register()
    made = [immediate_form(0x13, 7, place, other, 12), add(place, place, 2)]  # andi, add
    late = [mul(place, other, 0), add(place, place, 2)]
    forms = [
        [lw(place, draw.choice([0, 4, 8, -16]), 2)], [lbu(place, draw.choice([0, 1, 2, 4, -2]), 2)], [sw(other, draw.choice([0, 4, 8]), 2)],
        [*made, sw(register(), 0, place)], [*made, sh(register(), draw.choice([0, 1, 2]), place)],
        [*made, lw(register(), draw.choice([0, 4, -16]), place)], [*late, sw(register(), draw.choice([0, 4]), place), lw(register(), 0, 2)],
        [div(place, other, register())], [mul(place, other, register())], [add(place, other, register())],
        [sw(other, 0, draw.choice([0, 2, 2]))], [lw(place, 0, draw.choice([0, 2, 2]))],
        *[[branch(draw.choice([0, 1, 4, 5, 6, 7]), other, register(), 4 * draw.randrange(2, 7))]] * 2,
    ]
    return draw.choice(forms)


def program(draw):
    """A loop over such words."""
    body = [word for _ in range(draw.randrange(6, 18)) for word in chunk(draw)] + [addi(0, 0, 0)] * 6
    return [addi(COUNTER, 0, draw.randrange(1, 5)), *body, addi(COUNTER, COUNTER, -1), branch(0, COUNTER, 0, 8), jal(0, -4 * (len(body) + 2)),
            *EXIT]


def image(draw, name):
    """The file of such a program, with data where x2 points."""
    code = b"".join(word.to_bytes(4, "little") for word in program(draw))
    return support.file_of(f"{name}.elf", support.elf([(5, 0x00010000, code, len(code)), (6, 0x0001fff0, draw.randbytes(9), 9)]))


def description(draw, name):
    """A description with bits of dependence or none, under a model and a defence, of a small, a middle or a large core."""
    sizes = draw.choice([{}, support.SMALLEST, support.LARGEST | support.LARGER])
    keys = {"depend": draw.choice([0, 1, 2, 16, 64]), "defence": f'"{draw.choice(list(DEFENCES))}"', "misaligned": draw.choice([0, 1]),
            "mshrs": draw.choice([2, 3, 8])}
    return support.description(name, draw.choice(["spectre", "futuristic", "off"]), 2, **sizes | keys | draw.choice(OTHERS))
