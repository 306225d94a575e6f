"""Random programs in C whose loads and stores often have addresses that are no multiple of their width.

The accesses are to types of alignment 1, so the programs are well-defined C; a compiler that may leave such accesses whole makes one
instruction of each. A program fills a buffer, computes on it, puts it out with its checksum, and exits with a byte of that."""
import random

BYTES = 256
TYPES = {"word": 4, "integer": 4, "half": 2, "short_half": 2, "octet": 1}
HEAD = f"""#include "io.h"

#define UNALIGNED __attribute__((may_alias, aligned(1)))
typedef unsigned UNALIGNED word;
typedef int UNALIGNED integer;
typedef unsigned short UNALIGNED half;
typedef short UNALIGNED short_half;
typedef unsigned char UNALIGNED octet;
struct __attribute__((packed)) record {{ char a; unsigned b; short c; char d; int e; }};

static unsigned char memory[{BYTES}];
static struct record records[5];
"""
TAIL = f"""
int main(void) {{
  for (unsigned i = 0; i < sizeof memory; i++)
    memory[i] = i * 37 + SEED;
  unsigned sum = work(SEED, SEED * 2654435761u);
  for (unsigned i = 0; i < sizeof memory; i++)
    sum = sum * 31 + memory[i];
  for (unsigned i = 0; i < 5; i++)
    sum = sum * 31 + records[i].b + records[i].c + records[i].e;
  write(1, memory, sizeof memory);
  write(1, &sum, sizeof sum);
  return sum & 255;
}}
"""


class Program:
    """Draws the parts of one program. Variables are `x` and `y`, the parameters, and `a` to `d`."""

    VARIABLES = "xyabcd"

    def __init__(self, seed):
        self.draw, self.seed, self.functions = random.Random(seed), seed, 0

    def text(self):
        bodies = "".join(self.function() for _ in range(self.draw.randint(1, 4)))
        return HEAD + bodies + self.function("work") + TAIL.replace("SEED", f"{self.seed % 4093 + 1}u")

    def function(self, name=None):
        if name is None:
            name = f"f{self.functions}"
        body = "".join(self.statement(2) for _ in range(self.draw.randint(4, 9)))
        text = (f"\n__attribute__((noinline)) static unsigned {name}(unsigned x, unsigned y) {{\n"
                f"  unsigned a = x ^ {self.number()}, b = y + {self.number()}, c = x * y, d = x - y;\n{body}"
                f"  return a ^ b * 3 ^ c + d;\n}}\n")
        self.functions += name != "work"
        return text

    def number(self):
        return f"{self.draw.choice([self.draw.randrange(16), self.draw.randrange(1 << 32)])}u"

    def variable(self):
        return self.draw.choice(self.VARIABLES)

    def place(self):
        """An access: at a fixed place, or at one that is computed; of a field of a packed record."""
        kind = self.draw.choice(list(TYPES))
        if self.draw.random() < 0.2:
            return f"records[{self.draw.randrange(5)}].{self.draw.choice('abcde')}"
        if self.draw.random() < 0.5:
            return f"*({kind} *)(memory + {self.draw.randrange(BYTES - TYPES[kind] + 1)})"
        return f"*({kind} *)(memory + ({self.variable()} & 127) + {self.draw.randrange(BYTES - 127 - TYPES[kind] + 1)})"

    def expression(self, depth=2):
        draw = self.draw.random()
        if depth == 0 or draw < 0.25:
            return self.draw.choice([self.variable, self.variable, self.number])()
        if draw < 0.55:
            return f"(unsigned){self.place()}"
        one, two = self.expression(depth - 1), self.expression(depth - 1)
        if draw < 0.62:
            return f"({one} {self.draw.choice(['<<', '>>'])} ({two} & 31))"
        if draw < 0.68:
            return f"({one} {self.draw.choice(['/', '%'])} ({two} | 1))"
        return f"({one} {self.draw.choice(['+', '-', '*', '^', '&', '|', '<', '=='])} {two})"

    def statement(self, depth):
        draw, indent = self.draw.random(), "  " * (3 - depth)
        if draw < 0.4:
            return f"{indent}{self.place()} = {self.expression()};\n"
        if draw < 0.7 or depth == 0:
            return f"{indent}{self.draw.choice('abcd')} {self.draw.choice(['=', '+=', '^='])} {self.expression()};\n"
        inner = "".join(self.statement(depth - 1) for _ in range(self.draw.randint(1, 3)))
        if draw < 0.8:
            return f"{indent}if ({self.expression()} & 1) {{\n{inner}{indent}}}\n"
        if draw < 0.9:
            counter = "ij"[depth - 1]
            return f"{indent}for (int {counter} = 0; {counter} < {self.draw.randint(2, 6)}; {counter}++) {{\n{inner}{indent}}}\n"
        if self.functions:
            return f"{indent}{self.draw.choice('abcd')} += f{self.draw.randrange(self.functions)}({self.expression(1)}, {self.expression(1)});\n"
        return inner


def program(seed):
    """The text of the program of this number."""
    return Program(seed).text()
