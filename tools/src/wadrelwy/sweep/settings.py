"""Descriptions with other values (docs/formats.md, "Machine descriptions")."""
import re
import tomllib

from wadrelwy.view import Fault
from wadrelwy.view.description import DEFENCES as NAMES, FUTURISTIC, OFF, SPECTRE, STT

MODEL, DEFENCE = "stt.model", "stt.defence"
# a number of 32 bits has ten digits at most
VALUE = re.compile(r"[0-9]{1,10}|[A-Za-z_][A-Za-z0-9_]*")
# nothing protected; then each defence under each model
DEFENCES = [{MODEL: OFF, DEFENCE: STT}] + [{MODEL: model, DEFENCE: defence} for defence in NAMES for model in (SPECTRE, FUTURISTIC)]
# what --defences means, as a help says it
TOLD = f"{OFF}, and each of {', '.join(NAMES)} under {SPECTRE} and {FUTURISTIC}"
# why a protected run may be the shorter one
FASTER = ("A branch on a wrong path that is resolved teaches the predictor, and a load there brings lines and takes ports; a defence holds "
          "some of them until they are dropped, so that the right path may find truer counters and freer ports. "
          "`wadrelwy view stats` counts both.")


def told(values):
    """A model and a defence as a table tells them: `off`, `spectre`, `spectre+hold`."""
    if MODEL not in values:
        raise Fault(f"a description without {MODEL}")
    defence = values.get(DEFENCE, STT)
    return values[MODEL] + ("" if defence == STT or values[MODEL] == OFF else f"+{defence}")


def parsed(text, name):
    """The values of a description's text by their keys: `core.rob`, and `version` alone."""
    try:
        tables = tomllib.loads(text)
    except tomllib.TOMLDecodeError as error:
        raise Fault(f"{name}: no TOML text ({error})") from None
    values = {}
    for table, inner in tables.items():
        values |= {f"{table}.{key}": value for key, value in inner.items()} if isinstance(inner, dict) else {table: inner}
    return values


def with_values(text, values, name):
    """The text of a description with these values, each in the place of the key's own or at the head of its table."""
    for key, value in reversed(values.items()):
        text = with_value(text, key, value, name)
    found = parsed(text, name)
    wrong = [key for key, value in values.items() if found.get(key) != value]
    if wrong:
        raise Fault(f"{name}: {wrong[0]} can't be set in this text")
    return text


def with_value(text, key, value, name):
    *table, last = key.split(".")
    line = f'{last} = {value}' if isinstance(value, int) else f'{last} = "{value}"'
    if not table:
        text = re.sub(rf"(?m)^{re.escape(last)}\s*=.*\n", "", text)
        return f"{line}\n{text}"
    head = re.search(rf"(?m)^\[{re.escape(table[0])}\].*\n", text)
    if head is None:
        return f"{text}\n[{table[0]}]\n{line}\n"
    end = re.compile(r"(?m)^\[").search(text, head.end())
    inner = text[head.end():end.start() if end else len(text)]
    inner = re.sub(rf"(?m)^{re.escape(last)}\s*=.*\n?", "", inner)
    return f"{text[:head.end()]}{line}\n{inner}{text[end.start() if end else len(text):]}"


def value_of(word):
    """A value as the command line has it: a number, or a name."""
    return int(word) if word.isdigit() else word


def asked(word):
    """The key and the values of `core.rob=16,32,64`."""
    key, equals, values = word.partition("=")
    if not equals or not re.fullmatch(r"[a-z_]+(\.[a-z_]+)?", key) or not all(map(VALUE.fullmatch, values.split(","))):
        raise Fault(f"--set {word[:80]}: KEY=VALUE,.. is asked for, as core.rob=16,32,64")
    return key, [value_of(value) for value in values.split(",")]
