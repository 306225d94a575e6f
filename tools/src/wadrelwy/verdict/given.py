"""What a verdict is asked of, where it isn't the files as they are: another value for a key of the description, other bytes in the images
(`--set`), and a copy with a second secret (`--value`). The copies lie in a folder of their own, and no text names them: what is told names the
file that each is of, and what is set."""
import os
import re
from typing import Callable, NamedTuple, Optional, Sequence

from wadrelwy.machine.notes import NAMES, RANGES
from wadrelwy.sweep import settings
from wadrelwy.sweep.kept import text, write
from wadrelwy.view import Fault
from wadrelwy.view.description import DESCRIPTION_MAX
from wadrelwy.view.image import Image

from . import ranges
from .patched import Patches
from .report import plural

KEYS = {*RANGES, *NAMES, "version"}
BYTES = re.compile(r"(?:[0-9a-fA-F]{2})+")
# so many bytes of a value are told
MOST_TOLD = 16


class File(NamedTuple):
    """A file that is asked of: the one that was named, the copy with other values, if there is one, and what is set in it, by name."""
    named: str
    copy: str
    values: dict

    @property
    def told(self) -> str:
        """As a line names it: `core.toml with core.rob 8`."""
        return f"{self.named} with {', '.join(f'{key} {shortened(value)}' for key, value in self.values.items())}" if self.values else self.named


class Given(NamedTuple):
    """The files of a verdict; one that is of no core has a description for its memory, or none."""
    description: Optional[File]
    images: "list[File]"

    @property
    def files(self) -> "list[File]":
        return [*([self.description] if self.description else []), *self.images]

    def told(self, said: str) -> str:
        """A text in which each copy is named as the file that it is of."""
        for file in self.files:
            if file.copy != file.named:
                said = said.replace(file.copy, file.told)
        return said


def shortened(value: object) -> str:
    text = str(value)
    return text if len(text) <= 2 * MOST_TOLD else f"{text[:2 * MOST_TOLD]}.."


def bytes_of(option: str, value: str) -> bytes:
    """The bytes of a value: two digits each, in the order of memory."""
    if not BYTES.fullmatch(value):
        raise Fault(f"{option}: bytes are asked for in the order of memory, two hexadecimal digits each, as 00ff10")
    return bytes.fromhex(value)


def split(words: Sequence[str]) -> tuple:
    """The values of --set: those of keys of the description, and those of bytes of the images."""
    keys: dict = {}
    places: dict = {}
    for word in words:
        name, equals, value = word.partition("=")
        if not equals or not name or not value:
            raise Fault(f"--set {word[:80]}: KEY=VALUE or SYMBOL[+OFFSET][:BYTES]=HEX is asked for, as core.rob=64 or key=00ff10")
        if name in keys or name in places:
            raise Fault(f"--set {name[:80]} stands twice")
        if name in KEYS:
            _, [*values] = settings.asked(word)
            if len(values) > 1:
                raise Fault(f"--set {word[:80]}: one value is asked for")
            keys[name] = values[0]
        else:
            places[name] = value
    return keys, places


def described(path: str, values: dict, folder: str) -> File:
    """The description with these values."""
    if not values:
        return File(path, path, {})
    copy = os.path.join(folder, "description.toml")
    write(copy, settings.with_values(text(path, DESCRIPTION_MAX), values, path).encode())
    return File(path, copy, values)


def place_of(image: Image, word: str, size: int) -> ranges.Range:
    """The bytes of a word of --set: where it is an address alone as many as its value has, else as many as the word says."""
    name = f"{word}:{size}" if re.fullmatch(ranges.NUMBER, word) else word
    try:
        found = ranges.named(image, name)
    except Fault as fault:
        more = '; nor has a description such a key (docs/formats.md, "Keys")' if re.fullmatch(r"[a-z_]+\.[a-z_]+", word) else ""
        raise Fault(str(fault).replace(f"--secret {name}", f"--set {word}") + more) from None
    if found.size != size:
        raise Fault(f"--set {word}: {plural(found.size, 'byte')} {'is' if found.size == 1 else 'are'} asked for, and the value has {size}")
    return found


def imaged(path: str, values: dict, copy: str) -> File:
    """An image with these bytes."""
    if not values:
        return File(path, path, {})
    image, patches = Image(path), Patches(path)
    for word, value in values.items():
        place = place_of(image, word, -(-len(value) // 2))
        patches.put([place], bytes_of(f"--set {word}", value))
    return File(path, patches.write_as(copy), dict(values))


def second(first: File, secret: Sequence[str], value: str, copy: str) -> File:
    """The image of the other secret: as the first one, with another value of the bytes that the words of --secret name."""
    image, patches = Image(first.copy), Patches(first.copy)
    found = [ranges.named(image, word) for word in secret]
    size, data = sum(each.size for each in found), bytes_of("--value", value)
    if size != len(data):
        raise Fault(f"--value: {plural(size, 'byte')} {'is' if size == 1 else 'are'} asked for, and it has {len(data)}")
    if patches.value(found) == data:
        raise Fault(f"--value: {first.told} has these very bytes there, so there is nothing to compare")
    patches.put(found, data)
    return File(first.named, patches.write_as(copy), first.values | {" ".join(secret): value})


def of_words(description: Optional[str], images: Sequence[str], words: Sequence[str], secret: Sequence[str], value: Optional[str],
             folder: str) -> Given:
    """The files that these words ask of, copies in this folder."""
    keys, places = split(words)
    if keys and description is None:
        raise Fault(f"--set {next(iter(keys))}: there is no description whose value that is; --desc names one, for its memory")
    files = [imaged(path, places, os.path.join(folder, f"{number}.elf")) for number, path in enumerate(images, 1)]
    if value is not None:
        files.append(second(files[0], secret, value, os.path.join(folder, "second.elf")))
    return Given(described(description, keys, folder) if description is not None else None, files)


def asked(given: Given, ask: Callable[[], int]) -> int:
    """What is answered; a refusal names files as they are told."""
    try:
        return ask()
    except Fault as fault:
        raise type(fault)(given.told(str(fault))) from None
