"""The words by which the built programs are asked."""
import argparse
import re
from typing import Optional

MOST = 4294967295
# zeros and a plus may stand before the digit (docs/formats.md, "Words of stt_secrets")
STREAM = re.compile(r"\+?0*([12])")


def count(text: str) -> int:
    """A number of cycles or steps."""
    if not text.isdecimal() or not 1 <= int(text) <= MOST:
        raise argparse.ArgumentTypeError(f"`{text}` is no number from 1 to {MOST}")
    return int(text)


def of_core(parser: argparse.ArgumentParser) -> None:
    """A description and an image."""
    parser.add_argument("description", metavar="DESCRIPTION", help="a core's sizes and latencies, a file as examples/core.toml")
    parser.add_argument("image", metavar="IMAGE", help="an ELF image for RV32IM")


def budget(parser: argparse.ArgumentParser, of: str = "cycles", default: int = MOST) -> None:
    """How long it may go on."""
    without = "the run goes to its end" if default == MOST else f"{default}"
    parser.add_argument(f"--{of}", type=count, default=default, metavar="N", help=f"at most so many {of}; without it {without}")


class Streams(argparse.Action):
    """Public streams, each named once, in the order of their numbers."""

    def __call__(self, parser: argparse.ArgumentParser, namespace: argparse.Namespace, value: object, option: Optional[str] = None) -> None:
        named = getattr(namespace, self.dest)
        if value in named:
            parser.error(f"{option} {value} stands twice")
        setattr(namespace, self.dest, sorted([*named, value]))


def stream(text: str) -> int:
    """The number of a stream that something is put out to, as the program reads it."""
    found = STREAM.fullmatch(text)
    if found is None:
        raise argparse.ArgumentTypeError(f"`{text}` is no stream that a program writes to: 1 or 2")
    return int(found[1])


def public_streams(parser: argparse.ArgumentParser) -> None:
    """Which streams are public."""
    parser.add_argument("--public-stream", action=Streams, type=stream, default=[], metavar="N",
                        help="what the program writes to this stream, 1 or 2, is public from then on; both where it stands twice")


def program(parser: argparse.ArgumentParser, name: str = "stt_cli") -> None:
    """Which program is asked."""
    parser.add_argument("--program", metavar="P", help=f"the built program {name}; without it that of the variable {name.upper()}, else one "
                                                       "beside the others', else the one that is built in this tree")
