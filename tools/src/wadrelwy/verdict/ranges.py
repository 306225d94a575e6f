"""Secrets by name: the words `SYMBOL[+OFFSET][:BYTES]` and `ADDRESS:BYTES` as ranges of an image's memory (docs/secrets.md)."""
import re
from typing import NamedTuple, Optional

from wadrelwy.view import Fault
from wadrelwy.view.image import Image

# numbers as the program reads them (docs/formats.md, "Words of stt_secrets"): zeros and a plus may stand before the digits
DECIMAL = r"\+?[0-9]+"
NUMBER = rf"0x\+?[0-9a-fA-F]+|{DECIMAL}"
WORD = re.compile(rf"(?:(?P<address>{NUMBER})|(?P<symbol>[^\d+:][^+:]*)(?:\+(?P<offset>{NUMBER}))?)(?::(?P<size>{DECIMAL}))?")
MOST = 0xffffffff
# more than so many words are too many for a command line
MOST_RANGES = 256


class NoSymbol(Fault):
    """An image has no symbol of a name."""


class Range(NamedTuple):
    """Some bytes of memory, by the address of the first and how many they are."""
    address: int
    size: int

    @property
    def word(self) -> str:
        """As the program reads it."""
        return f"0x{self.address:08x}:{self.size}"

    @property
    def addresses(self) -> range:
        return range(self.address, self.address + self.size)


def named(image: "Image", word: str) -> "Range":
    """The range that a word names in an image."""
    found = WORD.fullmatch(word)
    if found is None:
        raise Fault(f"--secret {word}: SYMBOL, SYMBOL+OFFSET:BYTES or ADDRESS:BYTES is asked for, as key, key+4:8 or 0x10080:16")
    size = number(word, found["size"]) if found["size"] else None
    if found["address"]:
        if not size:
            raise Fault(f"--secret {word}: how many bytes? as {word.split(':')[0]}:16")
        return Range(number(word, found["address"]), size)
    address, whole = symbol(image, found["symbol"])
    return part(word, address, whole, number(word, found["offset"] or "0"), size)


def number(word: str, text: str) -> int:
    """A number of a word: hexadecimal behind `0x`, else decimal."""
    base, digits = (16, text[2:]) if text.startswith("0x") else (10, text)
    digits = digits.lstrip("+").lstrip("0") or "0"
    found = int(digits, base) if len(digits) <= len(str(MOST)) else MOST + 1
    if found > MOST:
        raise Fault(f"--secret {word[:80]}: a number is at most {MOST}")
    return found


def symbol(image: "Image", name: str) -> tuple:
    """Address and size of the one symbol of this name."""
    places = sorted({(address, size) for address, size, other in image.symbols if other == name})
    if not places:
        raise NoSymbol(f"{image.name} has no symbol `{name}`" + ("" if image.symbols else ", as it has none at all"))
    if len(places) > 1:
        raise Fault(f"{image.name} has `{name}` at {' and at '.join(f'{address:08x}' for address, _ in places)}: name one by its address")
    return places[0]


def part(word: str, address: int, whole: int, offset: int, size: Optional[int]) -> "Range":
    """Some of a symbol's bytes, which may be as many as it has; a label of assembly has none, and any number may be asked for."""
    if size is None:
        size = whole - offset
    if size < 1 and not whole:
        raise Fault(f"--secret {word}: the image doesn't say how many bytes `{word}` has; name it as {word}:16")
    if size < 1 or whole and offset + size > whole:
        raise Fault(f"--secret {word}: the symbol has {whole} bytes")
    return Range(address + offset, size)


def of_addresses(addresses: list) -> list:
    """Sorted addresses as ranges. Where they are too many for a command line, those that lie closest are taken together with what lies
    between."""
    found: list = []
    for address in addresses:
        if found and found[-1].address + found[-1].size == address:
            found[-1] = Range(found[-1].address, found[-1].size + 1)
        else:
            found.append(Range(address, 1))
    return joined(found)


def joined(ranges: list) -> list:
    """At most MOST_RANGES ranges that have all these bytes."""
    gaps = sorted(later.address - each.address - each.size for each, later in zip(ranges, ranges[1:]))
    allowed = gaps[len(ranges) - MOST_RANGES - 1] if len(ranges) > MOST_RANGES else 0
    found = ranges[:1]
    for each in ranges[1:]:
        last = found[-1]
        if each.address - last.address - last.size <= allowed:
            found[-1] = Range(last.address, each.address + each.size - last.address)
        else:
            found.append(each)
    return found
