"""The package as a whole: what a user imports, and what type checkers say of it."""
from __future__ import annotations

import os
import shutil
import subprocess
import tempfile
import textwrap
import unittest

from .support import PYTHON, Case, cengmoat

PACKAGE = os.path.dirname(cengmoat.__file__)


class Modules(Case):
    def test_only_what_a_user_imports_has_a_public_name(self) -> None:
        found = {entry.split(".")[0] for entry in os.listdir(PACKAGE) if entry.endswith(".py") or os.path.isdir(os.path.join(PACKAGE, entry))}
        self.assertEqual({name for name in found if not name.startswith("_")}, {"array_api", "errors", "xarray"})
        self.assertEqual([name for name in cengmoat.__all__ if not hasattr(cengmoat, name)], [])


class Types(Case):
    @classmethod
    def setUpClass(cls) -> None:
        # (what mypy knows of NumPy is kept from one test to the next)
        cls.cache = tempfile.TemporaryDirectory()
        cls.addClassCleanup(cls.cache.cleanup)

    cache: tempfile.TemporaryDirectory[str]

    def test_a_script_of_a_user(self) -> None:
        """Operators with numbers and NumPy's arrays on either side are lazy arrays to mypy, and nothing in the package is wrong."""
        mypy = shutil.which("mypy")
        if mypy is None:
            self.skipTest("mypy isn't there")
        script = os.path.join(self.folder, "script.py")
        with open(script, "w", encoding="utf-8") as file:
            file.write(textwrap.dedent("""
                import numpy as np
                import cengmoat
                from cengmoat import array_api as xp

                store = cengmoat.Store("folder", allowed_mem="1GB")
                t: cengmoat.Array = store["t"]
                a: cengmoat.Array = 1 + t - 2
                b: cengmoat.Array = 7 // (3 * t) % 2
                c: cengmoat.Array = (1 << t) | (255 & t) ^ (t >> 1)
                d: cengmoat.Array = (1 < t) & (t != 4) | (True ^ (t == 3))
                e: cengmoat.Array = xp.where(d, t, 0).sum(axis=0, keepdims=True)
                f: cengmoat.Array = e.store("f")
                g = f.compute()
                h: cengmoat.Array = -abs(~t) @ t.T.astype("int64")
                i: int = t.check("i")
                j: cengmoat.Array = t + np.arange(3)
                k: str = store.status()["t"].state
            """))
        said = self.checked(mypy, "--strict", script, MYPYPATH=PYTHON)
        self.assertEqual([line for line in said.splitlines() if line.startswith("script.py")], [], said)

    def test_the_package_itself(self) -> None:
        mypy = shutil.which("mypy")
        if mypy is None:
            self.skipTest("mypy isn't there")
        said = self.checked(mypy, "--config-file", os.path.join(PYTHON, "pyproject.toml"), PACKAGE)
        self.assertIn("Success", said)

    def checked(self, mypy: str, *words: str, **more: str) -> str:
        """Return what mypy says."""
        return subprocess.run([mypy, "--cache-dir", self.cache.name, *words], env={**os.environ, **more}, cwd=self.folder,
                              capture_output=True, text=True).stdout


if __name__ == "__main__":
    unittest.main()
