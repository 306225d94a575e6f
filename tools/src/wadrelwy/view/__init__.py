"""A trace of the simulator, made readable: statistics, the reason of each wait, lists, differences and pictures.

The modules, from the bottom up; what words of code are is told by `riscv` beside this folder:

    rows         a line of a trace as the events of a cycle
    trace        the text of `trace`, line by line
    sources      the lines of source files, by the image's line table
    image        an ELF image: its code, its symbols, its sources
    disassembly  instructions as people write them
    description  the sizes and latencies of the core
    memory_side  the cache, the miss registers and the divider, as the events move them
    items        a fetched instruction, and what became of it
    pipeline     the window and the queue, as the events move them
    reasons      why an instruction waits, and why nothing retires
    front_end    why rename or fetch stops short
    checks       whether what happens is what the machine's rules ask for
    replay       a whole trace taken through all of these
    spans        what an instruction does in each cycle
    counts       what is counted over the fetched instructions
    stats, why, listing, difference, konata, o3, drawing, page
                 what each subcommand writes
    command      the words of the command line

Those that go over each event may be compiled (`tools/compile`): the types by which they are stand beside them, in NAME.pxd, and nothing else
asks for these. `faster` takes the compiled ones where they are there.
"""
from wadrelwy import Fault
