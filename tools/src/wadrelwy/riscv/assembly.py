"""An instruction as a reader writes it (The RISC-V Instruction Set Manual, volume I, chapter "RV32/64G Instruction Set Listings"). Targets of
branches and jumps are written as distances from the instruction itself."""
from .kinds import destination, first, second
from .operation import decode

# what stands behind the name, by the word's lowest seven bits
FORMS = {
    0x37: " x{rd},{upper:#x}", 0x17: " x{rd},{upper:#x}", 0x6F: " x{rd},{imm:+}", 0x67: " x{rd},{imm}(x{rs1})", 0x63: " x{rs1},x{rs2},{imm:+}",
    0x03: " x{rd},{imm}(x{rs1})", 0x23: " x{rs2},{imm}(x{rs1})", 0x13: " x{rd},x{rs1},{imm}", 0x33: " x{rd},x{rs1},x{rs2}", 0x0F: "", 0x73: "",
}


def text(word: int) -> str:
    """The instruction of a word, or the word itself where it is none of RV32IM."""
    _, name, imm = decode(word)
    if name == "illegal":
        return f"{word:08x}, which is no instruction"
    return name + FORMS[word & 0x7F].format(rd=destination(word), rs1=first(word), rs2=second(word), imm=imm, upper=word >> 12)
