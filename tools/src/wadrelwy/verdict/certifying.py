"""The runs of a table of certificates: images of each compiler and level, their secrets, and what the program says of each under each
description (wadrelwy certify)."""
import glob
import os
import shutil
import subprocess
import sys
from argparse import Namespace

from wadrelwy.sweep import plan, running
from wadrelwy.view import Fault
from wadrelwy.view.image import Image

from . import published, ranges, secrecy

PLAN = "certify.json"
NEEDS = {"gcc": ("make", "riscv64-unknown-elf-gcc"), "clang": ("make", "clang", "ld.lld")}


def built(sources, folder, compilers, levels, only, jobs):
    """The images that the Makefile of a folder builds, with lines of the source, all of them anew: a Makefile needn't know of each header,
    nor of its own options and the compiler. A compiler that isn't there is left out, and told."""
    files = sorted(path for ending in ("c", "cpp") for path in glob.glob(os.path.join(sources, f"*.{ending}")))
    names = [os.path.splitext(os.path.basename(path))[0] for path in files]
    names = [name for name in names if only in name]
    if not names:
        raise Fault(f"{sources} has no program in C or C++" + f" with `{only}` in its name" * bool(only))
    there = [compiler for compiler in compilers if is_there(compiler)]
    if not there:
        raise Fault(f"{sources} can't be built: of {' and '.join(compilers)} none is there")
    images = [os.path.join(os.path.abspath(folder), f"{compiler}-O{level}", f"{name}.elf")
              for name in names for compiler in there for level in levels]
    words = ["make", "-B", "-s", f"-j{jobs}", "-C", sources, f"BUILD={os.path.abspath(folder)}", "EXTRA=-g", *images]
    made = subprocess.run(words, capture_output=True, text=True, check=False)
    if made.returncode:
        raise Fault(f"make: {made.stderr.strip()}")
    return images


def is_there(compiler):
    missing = [name for name in NEEDS[compiler] if shutil.which(name) is None]
    if missing:
        print(f"wadrelwy certify: no {missing[0]}: what {compiler} builds is left out", file=sys.stderr)
    return not missing


def secrets_of(image, words):
    """The ranges of those words whose symbols an image has, at least one. A word that names a symbol of it wrongly is refused, and not left out."""
    found, last = [], None
    for word in words:
        try:
            found.append(ranges.named(image, word).word)
        except ranges.NoSymbol as fault:
            last = fault
    if not found:
        raise last
    return found


def memories(folder, asked, sets):
    """The memories in which every core that delays is asked of: that of each description, with what is set of memory; where there is no
    description, that which a run of the instruction set has without one."""
    if not asked.descriptions:
        yield "", {}, "", b""
        return
    rams = [(key, values) for key, values in sets if key.startswith("ram.")]
    words = Namespace(descriptions=asked.descriptions, defences=False)
    yield from plan.described(folder, words, rams)


def make(folder, program, asked):
    """The plan of these words."""
    every_core = asked.every_core or not asked.descriptions
    for word in asked.secret:
        if not any(has(Image(image), word) for image in asked.programs):
            ranges.named(Image(asked.programs[0]), word)
    made = plan.make(folder, program, asked, PLAN,
                     lambda image: secrecy.words_of(secrets_of(Image(image), asked.secret), asked.public_stream),
                     lambda sets: memories(folder, asked, sets) if every_core else ())
    return plan.keep(running.Checked(made, asked.jobs, Asks(made), steps=False).checked(), PLAN)


def has(image, word):
    """Whether an image has the symbol of a word."""
    try:
        return ranges.named(image, word) is not None
    except ranges.NoSymbol:
        return False


def read(folder, streams=()):
    """The plan that a folder has. Where public streams are named, they are those that it was asked with."""
    made = plan.read(folder, PLAN)
    if streams and tuple(streams) != streams_of(made):
        raise Fault(f"{folder} was asked with {published.told_streams(streams_of(made))} public, and not with {published.told_streams(streams)}: "
                    "without --public-stream it is what it was asked with")
    return made


def streams_of(made):
    """The streams that are public in all runs of a plan."""
    return secrecy.streams_in(made.runs[0].words)


class Asks:
    """The question about secrets, and its whole answer, which is of a plan's public streams."""

    def __init__(self, made):
        self.streams = streams_of(made)

    def words(self, made, run):
        description = made.path(run.description) if run.description else None
        if run.of_path:
            return [made.path(run.image), *run.words, *secrecy.memory_words(description)]
        return [description, made.path(run.image), *run.words]

    def kept(self, said):
        """An answer, of a core or of a run of the instruction set, where it is whole."""
        text = f"{said.rstrip()}\n"
        for read in (secrecy.read_answer, secrecy.read_path_answer):
            try:
                read(text, self.streams)
                return text
            except Fault:
                continue
        return None
