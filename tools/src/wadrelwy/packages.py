"""Which Python has what the tools need."""
import importlib.util
import os
import sys

SYSTEM = "/usr/bin/python3"


def by_the_systems_python() -> None:
    """Goes on as the system's Python where this one, which may be a user's own, lacks pyelftools: a distribution's package puts it there.
    Returns where nothing is gained."""
    if importlib.util.find_spec("elftools") is None and sys.executable != SYSTEM and os.access(SYSTEM, os.X_OK):
        os.execv(SYSTEM, [SYSTEM, *sys.argv])
