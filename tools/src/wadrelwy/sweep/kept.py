"""What the runs of a folder are made of: copies of the program, of images and of descriptions, each with the first digits of its sha256 in its
name. So none is taken for another, here or on another machine; and where each comes from is kept, with what it had."""
import contextlib
import hashlib
import os
import re
import shutil
import subprocess
from functools import cache
from typing import NamedTuple

from wadrelwy import Unwritten, built_programs
from wadrelwy.view import Fault

DIGITS = 16
# the most bytes of an image (docs/formats.md, "Words")
IMAGE_MAX = 33554432
UNUSUAL = re.compile(r"[^A-Za-z0-9._=,+-]+")


class Source(NamedTuple):
    """A file that the plan was made of, and its sha256 then."""
    path: str
    sha256: str


def content(path, most=None):
    """The bytes of a file, at most so many: one more is read, and refused."""
    try:
        with open(path, "rb") as file:
            found = file.read(-1 if most is None else most + 1)
    except OSError as error:
        raise Fault(f"{path}: {error.strerror}") from None
    if most is not None and len(found) > most:
        raise Fault(f"{path}: more than {most} bytes")
    return found


def text(path, most=None):
    """The text of a file, of at most so many bytes."""
    try:
        return content(path, most).decode()
    except UnicodeDecodeError:
        raise Fault(f"{path}: no text, and so no description") from None


@contextlib.contextmanager
def whole(path):
    """The name of a part, which takes the place of a file once it is written, and is taken away where that fails."""
    part = f"{path}.{os.getpid()}.part"
    try:
        yield part
        os.replace(part, path)
    except BaseException as error:
        with contextlib.suppress(OSError):
            os.remove(part)
        if not isinstance(error, OSError):
            raise
        # a write that fails, as where the disk is full, names no file
        named = path if error.filename in (None, part) else error.filename
        raise (Fault if error.filename else Unwritten)(f"{named}: {error.strerror}") from None


def write(path, data, executable=False):
    """A file as a whole or not at all."""
    with whole(path) as part:
        with open(part, "wb") as file:
            file.write(data)
        if executable:
            os.chmod(part, 0o755)


def sha256(data):
    return hashlib.sha256(data).hexdigest()


def plain(name):
    """A name that a shell, make and a file system take as it is."""
    return UNUSUAL.sub("-", name)


def source(path):
    return Source(os.path.abspath(path), sha256(content(path)))


def copied(folder, kind, name, ending, data, executable=False):
    """A copy in the folder, by the name that tells what it has: `images/sort_0123456789abcdef.elf`."""
    os.makedirs(os.path.join(folder, kind), exist_ok=True)
    file = os.path.join(kind, f"{plain(name)}_{sha256(data)[:DIGITS]}{ending}")
    path = os.path.join(folder, file)
    if not os.path.exists(path) or content(path) != data:
        write(path, data, executable)
    return file


@cache
def digest_as_it_was(path, *state):
    return sha256(content(path))


def digest(path):
    """The sha256 of a file, read anew where it isn't as it was when it was read."""
    try:
        state = os.stat(path)
    except OSError as error:
        raise Fault(f"{path}: {error.strerror}") from None
    return digest_as_it_was(path, state.st_ino, state.st_size, state.st_mtime_ns, state.st_ctime_ns)


def check(folder, files):
    """Each of these files of the folder has what its name says."""
    for file in files:
        told = os.path.splitext(file)[0] if not file.startswith("programs") else file
        if not digest(os.path.join(folder, file)).startswith(told[-DIGITS:]):
            raise Fault(f"{os.path.join(folder, file)} isn't what was asked of: its sha256 doesn't begin as its name says. Give the whole "
                        f"command again")


def changed(sources):
    """The first of these files that is there and isn't as it was; none where each is, or is gone."""
    return next((each for each in sources if os.path.exists(each.path) and digest(each.path) != each.sha256), None)


def said_by(*words, folder=None):
    """The one line that a command says; none where there is no such command, or it fails."""
    if shutil.which(words[0]) is None:
        return None
    ran = subprocess.run(words, cwd=folder, capture_output=True, text=True, errors="replace", check=False)
    return ran.stdout.strip().splitlines()[0] if not ran.returncode and ran.stdout.strip() else None


def cited(program, name):
    """The line by which a table is cited: the program by its sha256; the kit's line, and the commit of the tree that this package is of, where
    there is one. An installed package has no tree, and is told by its version."""
    return f"{name} sha256 {sha256(content(program))}, {tools()}"


def tools():
    """The tools by which a table is made."""
    return of_tree() if built_programs.IN_TREE else f"tools {installed()}"


def of_tree():
    commit = said_by("git", "-C", built_programs.ROOT, "rev-parse", "--short=12", "HEAD")
    edited = commit and said_by("git", "-C", built_programs.ROOT, "status", "--porcelain", "--untracked-files=no")
    kit = said_by("rt", "version")
    if kit is None:
        found = re.search(r"(?m)^Handles: .*`(rattle-\S+ [^`]*)`", text(os.path.join(built_programs.ROOT, "README.md")))
        kit = found[1] if found else "unknown"
    return f"kit {kit}, commit {commit or 'none'}" + (" with edits" if edited else "")


def installed():
    """The version of the package, and of its sources a sha256: two installed ones of one version needn't be one."""
    # it takes long to load, and a tree needs it for nothing
    from importlib import metadata
    folder = os.path.dirname(os.path.dirname(os.path.abspath(__file__)))
    names = sorted(os.path.relpath(os.path.join(where, name), folder) for where, _, found in os.walk(folder) for name in found
                   if name.endswith((".py", ".js", ".css")))
    sources = "".join(f"{name} {sha256(content(os.path.join(folder, name)))}\n" for name in names)
    return f"{metadata.version('wadrelwy')}, sources sha256 {sha256(sources.encode())[:DIGITS]}"
