"""Everything that asks the built programs, or reads what they write: the command `wadrelwy`.

    commands    the words of each command, and what it does with them
    counting    what stt_stats counts of a run
    view        a trace, made readable
    verdict     two images, or one and its secret: may what shows differ, and does it
    sweep       many runs at once
    riscv       the instruction set's words

`__main__` is the door: it alone reads the first word, and tells refusals."""


class Fault(Exception):
    """Something that the user has to be told; the command ends with it, and with this status (statuses.py): refused."""

    status = 2


class Unwritten(Fault):
    """Standard output, or a file, couldn't be written whole."""

    status = 7
