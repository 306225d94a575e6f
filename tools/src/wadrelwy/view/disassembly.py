"""Instructions as people write them: by binutils' objdump, else by capstone where that knows RISC-V.

Debian 12's capstone (4.0) doesn't know RISC-V; later ones do, and tell where a branch goes as a distance and not as an address.
Where neither is there, an instruction is told by its kind and its registers.
"""
import re
import shutil
import subprocess
import tempfile
from typing import Any

OBJDUMPS = ("riscv64-unknown-elf-objdump", "riscv32-unknown-elf-objdump", "riscv64-linux-gnu-objdump")
CALLERS, MANUAL, KINDS = "abi", "manual", "kinds"

NAMES = ("zero ra sp gp tp t0 t1 t2 s0 s1 a0 a1 a2 a3 a4 a5 a6 a7 s2 s3 s4 s5 s6 s7 s8 s9 s10 s11 t3 t4 t5 t6").split()
NUMBER_OF = {name: f"x{number}" for number, name in enumerate(NAMES)} | {"fp": "x8"}
REGISTER = re.compile(r"\b(" + "|".join(NUMBER_OF) + r")\b")
LINE = re.compile(r"\s*([0-9a-f]+):\s+[0-9a-f]{8}\s+(\S+)\s*([^<#]*)")


class Disassembler:
    """The texts of an image's instructions.

    Notation `abi` has the names of registers and the aliases that compilers write (`li a7, 93`); `manual` has numbers of
    registers and, with objdump, no aliases (`addi x17, x0, 93`); `kinds` asks no disassembler.
    """

    def __init__(self, image: Any, notation: str = CALLERS) -> None:
        self.image, self.notation = image, notation
        self.objdump = next(filter(None, map(shutil.which, OBJDUMPS)), None)
        self.by, self.texts = self.read_texts()

    def read_texts(self) -> tuple:
        """Who tells them, and the texts by address."""
        if self.notation == KINDS:
            return KINDS, {}
        if self.objdump:
            return "objdump", self.by_objdump()
        engine = riscv_engine()
        if engine:
            return "capstone", self.by_capstone(engine)
        return KINDS, {}

    def text(self, pc: int) -> str:
        """The instruction at an address."""
        if pc not in self.texts:
            self.texts[pc] = self.by_kind(pc)
        return self.texts[pc]

    def place(self, pc: int) -> str:
        """The address, the instruction, the symbol and the source's line if there are any: `00010018 lw x7, -2048(x6) <main+0x18> a.c:7`."""
        symbol, line = self.image.symbol(pc), self.image.sources.told(pc)
        return self.address_and_text(pc) + (f" <{symbol}>" if symbol else "") + (f" {line}" if line else "")

    def address_and_text(self, pc: int) -> str:
        """The same without symbol and line."""
        return f"{pc:08x} {self.text(pc)}"

    def by_objdump(self) -> dict:
        found = {}
        options = ["-M", "no-aliases,numeric"] if self.notation == MANUAL else []
        for start, data in self.image.pieces:
            skip = -start % 4
            with tempfile.NamedTemporaryFile(suffix=".bin") as file:
                file.write(data[skip:])
                file.flush()
                command = [str(self.objdump), "-D", "-z", "-b", "binary", "-m", "riscv:rv32", *options,
                           f"--adjust-vma={start + skip}", file.name]
                output = subprocess.run(command, capture_output=True, text=True, check=True).stdout
            for line in map(LINE.match, output.splitlines()):
                if line:
                    found[int(line[1], 16)] = self.written(line[2], line[3])
        return found

    def by_capstone(self, engine: Any) -> dict:
        found = {}
        for start, data in self.image.pieces:
            skip = -start % 4
            for one in engine.disasm(data[skip:], start + skip):
                found[one.address] = self.written(one.mnemonic, one.op_str)
        return found

    def written(self, mnemonic: str, operands: str) -> str:
        """One form for both: a blank behind each comma, and the registers as the notation has them."""
        operands = ", ".join(part.strip() for part in operands.split(","))
        if self.notation == MANUAL:
            operands = REGISTER.sub(lambda found: NUMBER_OF[found[0]], operands)
        return f"{mnemonic} {operands}".strip()

    def by_kind(self, pc: int) -> str:
        """The kind, the register written and those read, where no disassembler tells more."""
        if pc not in self.image.words:
            return "(no code)"
        if self.by != KINDS:
            return f"(word {self.image.words[pc]:08x})"
        kind, sources, target = self.image.instruction(pc)
        registers = ([target] if target else []) + list(sources)
        return f"{kind} {', '.join(f'x{number}' for number in registers)}".strip()


def riscv_engine() -> Any:
    """Capstone for RV32, if it is there and knows it. It is asked for only where it is needed, as it takes a second to come in."""
    try:
        import capstone
    except ModuleNotFoundError:
        return None
    if not hasattr(capstone, "CS_ARCH_RISCV"):
        return None
    engine = capstone.Cs(capstone.CS_ARCH_RISCV, capstone.CS_MODE_RISCV32)
    engine.skipdata = True
    return engine
