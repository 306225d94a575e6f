"""What the model of tools/evaluate is asked: the runs of its folder, and the facts of crates/worked_runs/proofs that `facts` reads."""
import os
from types import SimpleNamespace

import facts
import model
from wadrelwy.verdict.loaded import load

RUNS_FOLDER = os.path.join(os.path.dirname(os.path.dirname(os.path.realpath(__file__))), "runs")


def content(*path):
    with open(os.path.join(*path), encoding="ascii") as file:
        return file.read()


def read_run(folder):
    """A run's folder."""
    numbers = model.read_numbers(content(folder, "core.toml"))
    return SimpleNamespace(numbers=numbers, image=load(os.path.join(folder, "image.elf"), numbers), budget=int(content(folder, "cycles")),
                           trace=content(folder, "trace"), status=int(content(folder, "status")))


def run(case, written_by=model):
    """The trace of a run or fact, and the status of the command that writes it."""
    lines, status = written_by.trace(case.numbers, case.image, case.budget)
    return "".join(line + "\n" for line in lines), status


FOLDERS = [os.path.join(RUNS_FOLDER, name) for name in sorted(os.listdir(RUNS_FOLDER))]
RUNS = {os.path.basename(folder): read_run(folder) for folder in FOLDERS if os.path.isdir(folder)}
FACTS = facts.read_facts()
CASES = RUNS | FACTS
