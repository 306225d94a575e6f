"""The printed samples of the documents: commands with what they write, in blocks of indented lines.

A line that begins with `$ ` is a command, run by bash at the top of the repository, with `\\` at its end also the next line; the lines below
it are what it writes, where a line `..` stands for any lines, and ` ..` at a line's end for its rest. A command without lines below it is
run for those that follow. A blank line ends a block; other indented blocks are none of these."""
import functools
import os
import re
import shutil
import subprocess
import sys

TOP = os.path.dirname(os.path.dirname(os.path.dirname(os.path.abspath(__file__))))

from wadrelwy import built_programs

DOCUMENTS = ("README.md", "docs/using.md", "docs/results.md", "docs/secrets.md")
# what a command with such words asks for
NEEDS = [("build/gcc", "riscv64-unknown-elf-gcc"), ("build/picolibc", "riscv64-unknown-elf-gcc"), ("build/clang", "clang"), ("xxd", "xxd"),
         ("wadrelwy verdict", "riscv64-unknown-elf-objdump"),
         ("examples/c programs", "riscv64-unknown-elf-gcc"), ("wadrelwy view", "riscv64-unknown-elf-objdump")]
PICOLIBC = "/usr/lib/picolibc"
# what a compiler makes is its own: the samples are of this one
GCC, GCC_VERSION = "riscv64-unknown-elf-gcc", "12.2"
SECONDS = 120
# of the program: an exit, a trap, a budget that is used up
RAN = (0, 1, 3)


def program():
    """The path of the program that samples are held against; None where there is none."""
    found = built_programs.simulator()
    return found and os.path.abspath(found)


def samples(text):
    """Each command of a page, as text, with the lines below it."""
    found = []
    for block in re.findall(r"(?:^    .*\n)+", text, re.M):
        lines = [line[4:] for line in block.splitlines()]
        if lines[0].startswith("$ "):
            found += commands(lines)
    return found


def commands(lines):
    found, goes_on = [], False
    for line in lines:
        if goes_on:
            found[-1][0] += "\n" + line
        elif line.startswith("$ "):
            found.append([line[2:], []])
        elif found:
            found[-1][1].append(line)
        goes_on = (goes_on or line.startswith("$ ")) and line.endswith("\\")
    return [(command, lines) for command, lines in found]


def pattern(lines):
    """A regular expression for what these lines stand for."""
    def of(line):
        if line == "..":
            return "(?:.*\n)*?"
        return re.escape(line.removesuffix("..")) + (".*" if line.endswith(" ..") else "") + "\n"
    return "".join(map(of, lines))


@functools.cache
def is_that_gcc():
    if shutil.which(GCC) is None:
        return False
    return subprocess.run([GCC, "-dumpversion"], capture_output=True, text=True, check=False).stdout.startswith(GCC_VERSION)


def lacking(command):
    """What a command asks for and isn't there, or None."""
    names = [name for words, name in NEEDS if words in command and shutil.which(name) is None]
    if "--secret" in command and built_programs.secrets() is None:
        names.append("stt_secrets")
    if ("wadrelwy stats" in command or "wadrelwy sample" in command) and built_programs.program(built_programs.STATS) is None:
        names.append("stt_stats")
    if "build/picolibc" in command and not os.path.isdir(PICOLIBC):
        names.append("picolibc-riscv64-unknown-elf")
    if "examples/c" in command and not is_that_gcc():
        names.append(f"gcc {GCC_VERSION}")
    return names[0] if names else None


def outcome(command, lines, path):
    """What is wrong with a sample: a text, or None."""
    try:
        ran = subprocess.run(["bash", "-c", command], cwd=TOP, capture_output=True, text=True, timeout=SECONDS, check=False,
                             env=os.environ | {"STT_CLI": path, "PATH": os.path.join(TOP, "tools") + os.pathsep + os.environ["PATH"]})
    except subprocess.TimeoutExpired:
        return f"takes more than {SECONDS} seconds"
    if not lines:
        right = RAN if command.startswith("$STT_CLI") else (0,)
        return None if ran.returncode in right else f"ends with status {ran.returncode}"
    if re.fullmatch(pattern(lines), ran.stdout):
        return None
    written = ran.stdout.splitlines()
    first = next((line for line in lines if not any(re.fullmatch(pattern([line]), f"{one}\n") for one in written)), None)
    said = ran.stderr.strip().split("\n")[0]
    return f"doesn't write `{first}`" if first is not None else "writes its lines in another order, or others between them" + f" ({said})" * bool(said)


def wrong(file, text, path):
    """What is wrong with the samples of a document, a line each."""
    told = []
    for command, lines in samples(text):
        problem = None if lacking(command) else outcome(command, lines, path)
        if problem:
            told.append(f"{file}: `{command.splitlines()[0]}` {problem}")
    return told
