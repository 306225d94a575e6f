"""Noninterference on the built program: random programs whose memories differ in each byte that the path doesn't load.

That their traces are equal is a theorem; here it is looked at from outside, and with it what the verdict says. (Expected is what the
theorem says, so nothing of it comes from the program.)"""
import random
import unittest

import material
from material import CODE_FLAGS, DATA_FLAGS, needs_program, support
from programs import EXIT, lbu
from wadrelwy.riscv.encoding import add, addi, branch, div, immediate_form, jal, lw, mul, sw, xor
from wadrelwy.verdict import judge
from wadrelwy.verdict.loaded import load
from wadrelwy.verdict.path import walk
from wadrelwy.view.description import read_description

SIZE, PROGRAMS, CYCLES = 1024, 100, 20000
BASE, LOOP = 8, 12  # x8 points to the data, x12 counts the rounds


def random_program(draw):
    """Words of a loop over loads, loads and stores at loaded places, divisions, sums and branches forward."""
    def register():
        return draw.choice([5, 6, 7, 9, 10, 11])

    def place(rd):
        return [immediate_form(0x13, 7, rd, register(), SIZE - 4), add(rd, rd, BASE)]  # andi, add

    def chunk():
        form, rd = draw.randrange(9), register()
        return [[lw(rd, 4 * draw.randrange(SIZE // 4), BASE)], [lbu(rd, draw.randrange(SIZE), BASE)],
                [*place(rd), lw(register(), 0, rd)], [*place(rd), lw(register(), 0, rd)], [*place(rd), sw(register(), 0, rd)],
                [div(rd, register(), register())], [draw.choice([add, xor, mul])(rd, register(), register())],
                *[[branch(draw.choice([0, 1, 4, 5, 6, 7]), register(), register(), 4 * draw.randrange(2, 9))]] * 2][form]

    body = [word for _ in range(draw.randrange(5, 25)) for word in chunk()] + [addi(0, 0, 0)] * 8
    return [addi(BASE, 2, -SIZE), addi(LOOP, 0, draw.randrange(1, 4)), *body,
            addi(LOOP, LOOP, -1), branch(0, LOOP, 0, 8), jal(0, -4 * (len(body) + 2)), *EXIT]


@needs_program
class Noninterference(unittest.TestCase):
    def test_random_programs(self):
        draw, loads, held = random.Random(1), 0, 0
        descriptions = support.descriptions() + [path for keys in support.defended(depend=16) for path in support.descriptions(2, **keys)]
        for number in range(PROGRAMS):
            description = draw.choice(descriptions)
            machine, words, data = read_description(description), random_program(draw), draw.randbytes(SIZE)
            first = machine.base + machine.size - 16 - SIZE
            one = self.image(number, words, first, data)
            loaded = walk(load(one, machine), machine.model, 100000).loads
            other = bytes(byte if first + at in loaded else byte ^ draw.randrange(1, 256) for at, byte in enumerate(data))
            case = judge.case_of(support.PROGRAM, description, one, self.image("other", words, first, other), CYCLES)
            with self.subTest(number=number):
                self.assertIn(case.word(), ("hidden", "vacuous"))
                self.assertEqual((case.telling.shown, list(case.telling.reasons.unexplained)), ({}, []))
            loads, held = loads + sum(case.telling.wrong_loads.values()), held + len(case.telling.held)
        self.assertGreater(loads, 0, "no wrong path loaded what differs")
        self.assertGreater(held, 0, "nothing was held on what differs")

    def image(self, name, words, first, data):
        code = material.words(*words)
        segments = [(CODE_FLAGS, material.CODE, code, len(code)), (DATA_FLAGS, first, data, len(data))]
        return support.file_of(f"random_{name}.elf", support.elf(segments))


if __name__ == "__main__":
    unittest.main()
