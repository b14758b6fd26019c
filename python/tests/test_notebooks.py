"""The notebooks of the documents: each cell runs, and prints what stands below it."""
from __future__ import annotations

import contextlib
import importlib.util
import io
import os
import re
import unittest

from .support import TOP, WithProgram

FOLDER = os.path.join(TOP, "docs", "notebooks")
NEEDED = {"climatology": ("xarray", "pandas", "dask"), "label_images": (), "cluster": ("distributed",)}


def cells(text: str) -> list[tuple[str, str]]:
    """Return the cells of code of a script, each with what it prints, by the lines that begin with `#>`."""
    found = []
    for kind, body in re.findall(r"^# %%(.*)\n((?:(?!# %%).*\n?)*)", text, re.M):
        if "[markdown]" not in kind:
            lines = body.splitlines()
            printed = [line[3:] for line in lines if line.startswith("#> ")]
            found.append(("\n".join("" if line.startswith("#> ") else line for line in lines), "".join(f"{line}\n" for line in printed)))
    return found


class Notebooks(WithProgram):
    maxDiff = None

    def run_script(self, name: str) -> None:
        path = os.path.join(FOLDER, f"{name}.py")
        if not os.path.isfile(path):
            self.skipTest("the notebooks lie in the repository")
        if importlib.util.find_spec("xarray") is None or any(importlib.util.find_spec(module) is None for module in NEEDED[name]):
            self.skipTest("xarray, pandas, dask or distributed isn't there")
        with open(path, encoding="utf-8") as file:
            found = cells(file.read())
        self.assertGreater(len(found), 4)
        names: dict[str, object] = {"__name__": name}
        here = os.getcwd()
        os.chdir(self.folder)
        try:
            for number, (code, wanted) in enumerate(found):
                with contextlib.redirect_stdout(io.StringIO()) as out:
                    exec(compile(code, path, "exec"), names)
                with self.subTest(name, cell=number):
                    self.assertEqual(out.getvalue(), wanted)
        finally:
            os.chdir(here)

    def test_climatology(self) -> None:
        self.run_script("climatology")

    def test_label_images(self) -> None:
        self.run_script("label_images")

    def test_cluster(self) -> None:
        self.run_script("cluster")

    def test_each_script_has_a_test(self) -> None:
        if os.path.isdir(FOLDER):
            self.assertEqual({name[:-3] for name in os.listdir(FOLDER) if name.endswith(".py")}, set(NEEDED))


if __name__ == "__main__":
    unittest.main()
