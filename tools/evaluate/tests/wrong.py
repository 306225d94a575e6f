"""Wrong rules: the model with one of its texts changed, and what runs/README.md says refuses each."""
import os
import re
import types

import model

HERE = os.path.dirname(os.path.dirname(os.path.realpath(__file__)))


def text_of(*path):
    with open(os.path.join(HERE, *path), encoding="utf-8") as file:
        return file.read()


def changed(old, new):
    """The model with this text in place of another, which it has once; or with several in place of as many."""
    source = text_of("model.py")
    for here, there in [(old, new)] if isinstance(old, str) else zip(old, new):
        assert source.count(here) == 1, here
        source = source.replace(here, there)
    wrong = types.ModuleType("wrong")
    wrong.__file__ = model.__file__
    exec(compile(source, "wrong", "exec"), wrong.__dict__)
    return wrong


def listed():
    """What refuses each wrong rule, as the tables have it."""
    text = text_of("runs", "README.md") + text_of("runs", "wrong_rules.md")
    return dict(re.findall(r"^\| (.+?)(?: \(in the model alone\))? \| (.+) \|$", text, re.M))


def cell(names):
    """These runs or facts as a table has them."""
    return ", ".join(f"`{name}`" for name in names)
