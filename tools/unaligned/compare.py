"""Builds random programs, and compares what the simulator and wadrelwy.verdict make of them with what qemu-riscv32 does."""
import os
import re
import shutil
import subprocess
import sys
import tempfile

HERE = os.path.dirname(os.path.realpath(__file__))
TOOLS = os.path.dirname(HERE)
ROOT = os.path.dirname(TOOLS)

import generate

C = os.path.join(ROOT, "examples", "c")
GCC = ["riscv64-unknown-elf-gcc", "-march=rv32im", "-mabi=ilp32", "-O2", "-mno-strict-align", "-mtune=size", "-ffreestanding", "-nostdlib",
       "-static", "-w", "-fno-tree-loop-distribute-patterns", f"-I{C}", "-T", os.path.join(HERE, "link.ld")]
QEMU = "qemu-riscv32"
NEEDED = [(GCC[0], "gcc-riscv64-unknown-elf"), (QEMU, "qemu-user")]
MACHINES = ("core_version_2.toml", "large.toml")
STEPS, CYCLES, SECONDS = 1000000, 4000000, 60


def missing():
    """What isn't there, by the names of Debian's packages."""
    absent = [package for tool, package in NEEDED if shutil.which(tool) is None]
    try:
        import elftools
    except ModuleNotFoundError:
        absent.append("python3-pyelftools")
    return absent


def descriptions(folder):
    """Files of descriptions under which accesses may have any address."""
    for name in MACHINES:
        with open(os.path.join(ROOT, "examples", name), encoding="utf-8") as file:
            text = re.sub(r"(?m)^\[ram\]$", "[ram]\nmisaligned = 1", file.read())
        for model in ("spectre", "futuristic"):
            path = os.path.join(folder, f"{model}_{name}")
            with open(path, "w", encoding="utf-8") as file:
                file.write(text.replace('"spectre"', f'"{model}"'))
            yield path


def build(seed, folder):
    """The image of the program of this number."""
    source, image = (os.path.join(folder, f"program_{seed}.{end}") for end in ("c", "elf"))
    with open(source, "w", encoding="ascii") as file:
        file.write(generate.program(seed))
    files = [os.path.join(C, "start.S"), source, os.path.join(C, "io.c")]
    subprocess.run([*GCC, "-o", image, *files], check=True)
    return image


def by_qemu(image):
    """What it puts out, and the exit's value."""
    ended = subprocess.run([QEMU, image], stdout=subprocess.PIPE, timeout=SECONDS, check=False)
    return ended.stdout, ended.returncode


def by_hart(image):
    """The same by wadrelwy.verdict, and how many accesses had an address that is no multiple of their width."""
    from wadrelwy.verdict.hart import Hart
    from wadrelwy.verdict.loaded import Loaded
    hart = Hart(Loaded(image, 0x00010000, 1 << 20, misaligned=True))
    odd = sum(step.access is not None and step.access.address % step.access.size != 0 for step in hart.run(STEPS))
    return (b"".join(hart.out), hart.end[1] if hart.end and hart.end[0] == "exit" else hart.end), odd


def by_simulator(program, *words):
    """The same by a command of the simulator; its status and its last words where the run doesn't end by an exit."""
    ended = subprocess.run([program, *words], capture_output=True, text=True, timeout=SECONDS, check=False)
    out = bytes.fromhex("".join(line[4:] for line in ended.stdout.splitlines() if line.startswith("out ")))
    exit_value = re.search(r"^end exit (\d+) ", ended.stdout, re.M)
    return out, int(exit_value[1]) if exit_value else (ended.returncode, (ended.stdout + ended.stderr)[-200:])


def compared(seed, folder, program, machines):
    """The runs of a program that differ from qemu's, and how many odd accesses it makes."""
    image = build(seed, folder)
    wanted = by_qemu(image)
    hart, odd = by_hart(image)
    runs = [("wadrelwy.verdict", hart)]
    for machine in machines if program else []:
        name = os.path.basename(machine)
        runs.append((f"isa, {name}", by_simulator(program, "isa", image, "--steps", str(STEPS), "--desc", machine)))
        runs.append((f"run, {name}", by_simulator(program, "run", machine, image, "--cycles", str(CYCLES))))
    return [(name, found) for name, found in runs if found != wanted], odd


def compare(seeds, program=None, keep=None):
    """Compares the programs of these numbers. The answer is how many are the same and how many aren't, and their odd accesses."""
    same = wrong = accesses = 0
    with tempfile.TemporaryDirectory() as folder:
        machines = list(descriptions(folder))
        for seed in seeds:
            differing, odd = compared(seed, folder, program, machines)
            accesses += odd
            same, wrong = same + (not differing), wrong + bool(differing)
            for name, (_, ended) in differing:
                print(f"program {seed}: {name} differs from {QEMU}: it ends with {ended}")
            if differing and keep:
                os.makedirs(keep, exist_ok=True)
                for end in ("c", "elf"):
                    shutil.copy(os.path.join(folder, f"program_{seed}.{end}"), keep)
    return same, wrong, accesses
