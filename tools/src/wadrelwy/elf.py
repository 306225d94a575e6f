"""ELF files, by pyelftools. Where this Python doesn't have it, an image is refused, with what to install; the words of the commands and what
needs no image go without."""
import sys

from wadrelwy import Fault


class NoPackage(Fault):
    """What reads images isn't there."""


try:
    from elftools.common.exceptions import DWARFError, ELFError
    from elftools.construct import Array, ConstructError
    from elftools.elf.constants import P_FLAGS
    from elftools.elf.elffile import ELFFile
except ModuleNotFoundError:
    class ELFError(Exception):  # type: ignore[no-redef]
        """Stands for those of pyelftools, and is never raised."""

    DWARFError = ConstructError = ELFError
    Array = None

    class P_FLAGS:  # type: ignore[no-redef]
        """Stands for that of pyelftools."""
        PF_X = 1

    class ELFFile:  # type: ignore[no-redef]
        """Stands for that of pyelftools, and refuses every file."""

        def __init__(self, *_: object) -> None:
            raise NoPackage(f"{sys.executable} has no package elftools, by which images are read: `apt-get install python3-pyelftools`, or "
                            "`pip install pyelftools`")
