"""The sizes and latencies of the core (docs/formats.md, "Machine descriptions").

The simulator refuses what is no description; here only what the reasons need is asked for: that each key is there, and of its kind.
"""
import tomllib
from typing import Any, NamedTuple, Union

from . import Fault

SPECTRE, FUTURISTIC, OFF = "spectre", "futuristic", "off"
STT, HOLD, DELAY = "stt", "hold", "delay"
MODELS = (SPECTRE, FUTURISTIC, OFF)
# each defence, and what it does to an instruction that it lets wait, in words
DEFENCES = {STT: "held by taint", HOLD: "held back", DELAY: "delayed"}
TEXTS = {"model": MODELS, "defence": tuple(DEFENCES)}
# the most bytes of a description (docs/formats.md, "Words")
DESCRIPTION_MAX = 65536
# above the range of every number (docs/formats.md, "Keys")
MOST = 4294967295

KEYS = {
    "fetch_width": "core", "retire_width": "core", "rob": "core", "stations": "core", "loads": "core", "stores": "core",
    "queue": "core", "alus": "units", "mul_latency": "units", "sets": "cache", "ways": "cache", "line": "cache",
    "hit_latency": "cache", "miss_latency": "cache", "mshrs": "cache", "base": "ram", "size": "ram", "model": "stt",
}

# the keys that may be left out, in version 2 alone: their tables, and what they are where they are left out
OPTIONAL: "dict[str, tuple[str, Union[int, str]]]" = {
    "misaligned": ("ram", 0), "depend": ("predictor", 0), "history": ("predictor", 0), "returns": ("predictor", 0),
    "second_sets": ("cache", 0), "second_ways": ("cache", 1), "second_latency": ("cache", 2), "prefetch": ("cache", 0),
    "defence": ("stt", STT),
}


class Description(NamedTuple):
    """The values of a description, by their keys' names."""

    version: int
    fetch_width: int
    retire_width: int
    rob: int
    stations: int
    loads: int
    stores: int
    queue: int
    alus: int
    mul_latency: int
    sets: int
    ways: int
    line: int
    hit_latency: int
    miss_latency: int
    mshrs: int
    base: int
    size: int
    model: str
    misaligned: int
    depend: int
    history: int
    returns: int
    second_sets: int
    second_ways: int
    second_latency: int
    prefetch: int
    defence: str


def defence_beside(model: str, defence: str) -> str:
    """What is told behind a model's name: the defence, where it isn't STT's own, and where the model protects."""
    return "" if defence == STT or model == OFF else f", defence {defence}"


def read_description(name: str) -> "Description":
    """The description of a file."""
    try:
        with open(name, "rb") as file:
            found = file.read(DESCRIPTION_MAX + 1)
        if len(found) > DESCRIPTION_MAX:
            raise Fault(f"{name}: more than {DESCRIPTION_MAX} bytes")
        tables = tomllib.loads(found.decode())
    except OSError as error:
        raise Fault(f"{name}: {error.strerror}") from None
    except (ValueError, RecursionError) as error:
        raise Fault(f"{name}: no TOML text ({error})") from None
    version = tables.get("version", 1)
    if type(version) is not int or version not in (1, 2):
        raise Fault(f"{name}: version is 1 or 2")
    values = {key: value_of(name, tables, table, key) for key, table in KEYS.items()}
    values |= {key: value_of(name, tables, table, key, default) for key, (table, default) in OPTIONAL.items()}
    return Description(version=version, **values)


def value_of(name: str, tables: dict, table: str, key: str, default: "Union[int, str, None]" = None) -> Any:
    """The value of a key. One of another kind is refused, and a number by which nothing can be reckoned; the ranges are the simulator's matter."""
    found = tables.get(table, {})
    if not isinstance(found, dict):
        raise Fault(f"{name}: {table} is a table, [{table}]")
    value = found.get(key, default)
    if value is None:
        raise Fault(f"{name}: the description has no {table}.{key}")
    if key in TEXTS:
        if value not in TEXTS[key]:
            raise Fault(f"{name}: {table}.{key} is none of {', '.join(TEXTS[key])}")
        return value
    least = 0 if key == "base" or default is not None else 1
    if type(value) is not int or not least <= value <= MOST:
        raise Fault(f"{name}: {table}.{key} is a whole number from {least} to {MOST}, and {value!r} isn't")
    return value
