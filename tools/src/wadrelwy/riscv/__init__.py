"""RV32IM, once for all tools (docs/instruction-set.md):

    kinds       what a word is to the pipeline: its kind, the registers it reads and writes
    arithmetic  what instructions make of two words, by their names
    operation   names, immediates and effects
    assembly    an instruction as a reader writes it
    encoding    the words of instructions

`arithmetic` may be compiled, as modules of `view` and `verdict` may (tools/compile): its types stand in arithmetic.pxd.
"""
