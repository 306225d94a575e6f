"""Comments of Rattle's sources, filled at a number of columns."""
import itertools
import os
import re
import textwrap

COLUMNS = 120
COMMENT = re.compile(r"(?P<before> *(?:///|//!|//|--)) (?P<text>\S.*)")
# what isn't prose begins so
OTHER = re.compile(r"([-*|#]|```|\d+\.) ?|----")


def sources(folder):
    """The files of code, definitions and proofs below a folder, without what the toolchain keeps there."""
    for place, folders, files in os.walk(folder):
        folders[:] = sorted(name for name in folders if name not in ("out", "data", "must-fail"))
        yield from (os.path.join(place, name) for name in sorted(files) if name.endswith((".rt", ".antt")))


def marker(line):
    """What stands before the text of a line of prose in a comment; none for any other line."""
    found = COMMENT.fullmatch(line)
    return found["before"] if found and not OTHER.match(found["text"]) else None


def is_long(line):
    return marker(line) is not None and len(line) > COLUMNS


def long_lines(text):
    """The numbers of the lines of prose that are too long."""
    return [number for number, line in enumerate(text.split("\n"), 1) if is_long(line)]


def filled(before, lines):
    """A paragraph, filled anew where a line of it is too long."""
    if not any(map(is_long, lines)):
        return lines
    words = " ".join(line[len(before) + 1:] for line in lines)
    return [f"{before} {line}" for line in textwrap.wrap(words, COLUMNS - len(before) - 1, break_long_words=False, break_on_hyphens=False)]


def wrapped(text):
    """The text with its long paragraphs filled anew."""
    found = []
    for before, lines in itertools.groupby(text.split("\n"), marker):
        found += list(lines) if before is None else filled(before, list(lines))
    return "\n".join(found)
