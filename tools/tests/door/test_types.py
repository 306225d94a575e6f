"""The types of the package: its public functions tell theirs, and mypy finds no fault."""
import ast
import glob
import os
import shutil
import subprocess
import unittest

import support
from wadrelwy.view import faster

TOOLS = os.path.join(support.ROOT, "tools")
PACKAGE = os.path.join(TOOLS, "src", "wadrelwy")
MYPY = shutil.which("mypy")
# whose functions have no types yet; those of compiled modules stand beside them (.pxd)
WITHOUT = {f"commands/{name}" for name in ("certify", "defences", "draw", "sweep", "verdict")} \
    | {f"sweep/{name}" for name in ("kept", "lists", "plan", "plots", "results", "running", "settings")} \
    | {f"verdict/{name}" for name in ("answered", "certificate", "certificates", "certifying", "drawing", "report", "simulator", "touched",
                                      "wrong_path")} \
    | {f"view/{name}" for name in ("drawing", "page")} \
    | {f"{package}/{name}" for package, names in faster.COMPILED.items() for name in names}


def without_types(path):
    """The public functions of a file that don't tell what they answer, or what they take."""
    with open(path, encoding="utf-8") as file:
        functions = [node for node in ast.walk(ast.parse(file.read())) if isinstance(node, ast.FunctionDef) and not node.name.startswith("_")]
    return [node.name for node in functions if node.returns is None
            or any(word.annotation is None for word in node.args.args + node.args.kwonlyargs if word.arg not in ("self", "cls"))]


class Types(unittest.TestCase):
    def test_public_functions_tell_them(self):
        for path in sorted(glob.glob(os.path.join(PACKAGE, "**", "*.py"), recursive=True)):
            name = os.path.relpath(path, PACKAGE).removesuffix(".py")
            if name not in WITHOUT and not name.startswith("compiled"):
                with self.subTest(name):
                    self.assertEqual(without_types(path), [])

    @unittest.skipUnless(MYPY, "no mypy (Debian: mypy)")
    def test_mypy_finds_no_fault(self):
        told = subprocess.run([MYPY, "--no-incremental", "--cache-dir", os.devnull], cwd=TOOLS, capture_output=True, text=True, timeout=600)
        self.assertEqual(told.returncode, 0, told.stdout + told.stderr)


if __name__ == "__main__":
    unittest.main()
