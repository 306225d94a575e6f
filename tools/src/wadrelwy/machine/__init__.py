"""The built programs, run as they are, and what they don't say by themselves.

    words     what they are asked, as words of the command line
    passing   runs one, its standard output passed on byte for byte
    notes     what a refusal means, and what to do
    ends      what ended a run: the trap's name, the instruction and its line, the address that was accessed
"""
