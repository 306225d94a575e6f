"""Copies of an image with other bytes: other values of a secret."""
from wadrelwy.elf import ELFFile
from wadrelwy.sweep.kept import write
from wadrelwy.view import Fault


class Patches:
    """The file of an image, of which copies with other bytes are made. A later segment lies over an earlier one."""

    def __init__(self, path: str) -> None:
        self.path = path
        try:
            with open(path, "rb") as file:
                self.content = file.read()
                file.seek(0)
                self.segments = [(load["p_vaddr"], load["p_filesz"], load["p_offset"]) for load in ELFFile(file).iter_segments("PT_LOAD")]
        except OSError as error:
            raise Fault(f"{path}: {error.strerror}") from None

    def place(self, address: int) -> int:
        """Where the byte of an address stands in the file."""
        for start, size, offset in reversed(self.segments):
            if start <= address < start + size:
                return offset + address - start
        raise Fault(f"{self.path}: the file has no byte for {address:08x}; what begins as 0 (.bss) can't be given another value so")

    def value(self, ranges: list) -> bytes:
        """The bytes of these ranges, one behind the other."""
        return bytes(self.content[self.place(address)] for each in ranges for address in each.addresses)

    def put(self, ranges: list, value: bytes) -> None:
        """Gives the ranges' bytes this value, in the copies that are written from then on."""
        content = bytearray(self.content)
        addresses = [address for each in ranges for address in each.addresses]
        for address, byte in zip(addresses, value, strict=True):
            content[self.place(address)] = byte
        self.content = bytes(content)

    def write(self, path: str, ranges: list, value: bytes) -> str:
        """Writes a copy with this value of the ranges' bytes."""
        own = self.content
        self.put(ranges, value)
        try:
            return self.write_as(path)
        finally:
            self.content = own

    def write_as(self, path: str) -> str:
        """Writes a copy."""
        write(path, self.content)
        return path
