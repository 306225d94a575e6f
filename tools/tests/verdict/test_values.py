"""Values and marks of entries in flight, renamed and issued by hand (docs/machine.md, "Entries")."""
import unittest

import material  # finds the modules below
from material import BOUND_0, CODE, CORE, DATA, SECRET, loaded, segment, words
from programs import lbu
from wadrelwy.riscv.encoding import add, lw, sw
from wadrelwy.riscv.kinds import LOAD, STORE
from wadrelwy.verdict.path import walk
from wadrelwy.verdict.telling import arguments
from wadrelwy.verdict.values import Valued
from wadrelwy.view.description import FUTURISTIC, SPECTRE, read_description
from wadrelwy.view.rows import Event


def image(*numbers):
    return loaded("values.elf", [segment(CODE, words(*numbers), True), segment(DATA, BOUND_0 + b"\x04")])


def renamed(numbers, model=SPECTRE):
    """A pipeline in which these words are renamed one after another, and their entries."""
    pipeline = Valued(image(*numbers), read_description(CORE)._replace(model=model), [SECRET])
    items = []
    for serial in range(len(numbers)):
        pipeline.fetch(CODE + 4 * serial)
        items.append(pipeline.rename(serial, CODE + 4 * serial))
    return pipeline, items


def issue(pipeline, item):
    """An entry issues in a cycle of its own; a load finds its lines."""
    pipeline.begin(pipeline.cycle + 1)
    name = {LOAD: "ld", STORE: "agu"}.get(item.code.kind, "alu")
    lines = pipeline.lines_of(pipeline.located(item)) if name == "ld" else []
    pipeline.issue(item, Event(name, item.serial, lines[0], "h") if lines else Event(name, item.serial))


def retire(pipeline, items):
    for item in items:
        pipeline.complete(item)
        pipeline.retire(item)


class Marks(unittest.TestCase):
    def marked(self, *numbers):
        """The registers that are made of the secret, behind these words: also where each retires before the next issues."""
        found = []
        for at_once in (False, True):
            pipeline, items = renamed(numbers)
            for item in items:
                issue(pipeline, item)
                retire(pipeline, [item] if at_once else [])
            retire(pipeline, [] if at_once else items)
            found.append([register for register, marked in enumerate(pipeline.marked_registers) if marked])
        self.assertEqual(found[0], found[1])
        return found[0]

    def test_through_registers(self):
        self.assertEqual(self.marked(lbu(6, 8, 2), add(7, 5, 6), add(9, 5, 5)), [6, 7])
        self.assertEqual(self.marked(lbu(6, 8, 2), add(6, 5, 5)), [])

    def test_through_memory(self):
        store, clear = sw(6, 4, 2), sw(0, 4, 2)
        self.assertEqual(self.marked(lbu(6, 8, 2), store, lw(7, 4, 2)), [6, 7])
        self.assertEqual(self.marked(lbu(6, 8, 2), store, clear, lw(7, 4, 2)), [6])

    def test_through_a_table(self):
        """What is loaded from a place made of the secret is made of it."""
        self.assertEqual(self.marked(lbu(6, 8, 2), add(6, 6, 2), lw(7, 0, 6), add(6, 5, 5)), [7])

    def test_return_address(self):
        """What a jump to a place made of the secret leaves in its register isn't made of it."""
        jump = 0x000300e7  # jalr x1, 0(x6)
        pipeline, items = renamed([lbu(6, 8, 2), jump])
        for item in items:
            issue(pipeline, item)
        value = pipeline.serials[1].value
        self.assertEqual((value.is_marked(), value.mark, value.result), (True, False, CODE + 8))

    def test_dropped(self):
        """What is dropped leaves no trace in registers, memory and marks."""
        pipeline, items = renamed([add(5, 2, 2), lbu(6, 8, 2), sw(6, 4, 2), add(5, 6, 6)])
        for item in items:
            issue(pipeline, item)
        pipeline.squash(items[0])
        self.assertEqual(list(pipeline.serials), [0])
        retire(pipeline, items[:1])
        self.assertEqual((pipeline.registers[5], pipeline.registers[6]), (2 * DATA & 0xffffffff, 0))
        self.assertEqual((pipeline.memory.get(DATA + 4, 1), any(pipeline.marked_registers)), (b"\0", False))
        self.assertEqual(list(pipeline.marked_bytes), [SECRET])


class Shadows(unittest.TestCase):
    def test_store_that_faults(self):
        """Under futuristic a Done store is safe where it doesn't fault; under spectre no store casts a shadow where no load passes it."""
        for store, model, safe in [(sw(5, 0, 0), FUTURISTIC, False), (sw(5, 0, 2), FUTURISTIC, True), (sw(5, 0, 0), SPECTRE, True)]:
            pipeline, (item,) = renamed([store], model)
            pipeline.issue(item, Event("agu", 0))
            pipeline.complete(item)
            self.assertEqual(pipeline.shadows, [] if safe else [item], (hex(store), model))


class Passing(unittest.TestCase):
    """A load that passes a store of unknown address finds what memory has; one that issues behind it finds the store's bytes."""

    def test_what_a_load_finds(self):
        words = [lbu(5, 8, 2), sw(5, 0, 2), lw(6, 0, 2)]
        for first, found in [(2, (0, False)), (1, (4, True))]:
            pipeline, items = renamed(words)
            issue(pipeline, items[0])
            for place in (first, 3 - first):
                issue(pipeline, items[place])
            value = pipeline.serials[2].value
            self.assertEqual((value.result, value.mark), found)


class Others(unittest.TestCase):
    def test_registers_of_calls(self):
        """docs/instruction-set.md, "System calls": an exit looks at a7 and a0, a write at a1 and a2 too, any other at a7."""
        self.assertEqual([sorted(arguments(number)) for number in (93, 94, 64, 1)], [[10, 17], [10, 17], [10, 11, 12, 17], [17]])

    def test_stores_are_no_loads(self):
        self.assertEqual(walk(image(sw(5, 0, 2), 0x05d00893, 0x00000073), SPECTRE, 10).loads, {})


if __name__ == "__main__":
    unittest.main()
