"""Runs the core of a description on an image, and writes its trace: a line a cycle with all that happens in it (docs/formats.md, "The trace").

Standard output and status are those of `stt_cli trace`; `wadrelwy view` makes a trace readable. On standard error stands what ended a run
that didn't exit, as `wadrelwy run` tells it. A million cycles are 30 to 200 MB."""
from argparse import ArgumentParser, Namespace

from wadrelwy.machine import words as asking

from . import run


def words(parser: ArgumentParser) -> None:
    asking.of_core(parser)
    asking.budget(parser, default=1000000)
    asking.program(parser)


def main(asked: Namespace) -> int:
    return run.asked_of_core(asked, "trace")
