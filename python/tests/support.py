"""What the tests share: the program, folders in memory, and exact comparisons."""
from __future__ import annotations

import os
import shutil
import stat
import sys
import tempfile
import unittest
from typing import Any, Optional

HERE = os.path.dirname(os.path.abspath(__file__))
PYTHON = os.path.dirname(HERE)
TOP = os.path.dirname(PYTHON)
sys.path.insert(0, PYTHON)

import numpy as np  # noqa: E402

import cengmoat  # noqa: E402
from cengmoat import array_api as xp  # noqa: E402
from cengmoat._program import VARIABLE, program_of  # noqa: E402
from cengmoat._finding import BUILT as IN_REPOSITORY  # noqa: E402

INTEGERS = ("int8", "int16", "int32", "int64", "uint8", "uint16", "uint32", "uint64")
TYPES = ("bool", *INTEGERS)
# Folders in memory, where there are any: what is tested isn't the disk.
ROOM = "/dev/shm" if os.access("/dev/shm", os.W_OK) else None


# Where the gate and ./cubed leave the proved program.
BUILT = os.path.join(TOP, IN_REPOSITORY)
# Names another program, for who works on the package. The gate doesn't set it, and runs the proved one.
OTHER = os.environ.get("CENGMOAT_TEST_PROGRAM")


def program() -> Optional[str]:
    """Return the proved program of this checkout, or None where there is none or it is older than its sources."""
    if OTHER:
        return cengmoat._program.find_program(OTHER)
    os.environ.pop(VARIABLE, None)
    try:
        return program_of(TOP)
    except cengmoat.NoProgram:
        return None


PROGRAM = program()
if PROGRAM is not None:
    # (expressions over no stored array are computed in a store of their own)
    os.environ[VARIABLE] = PROGRAM


class Case(unittest.TestCase):
    """A test with a folder of its own. Comparisons are exact, types included."""

    def setUp(self) -> None:
        self.folder = tempfile.mkdtemp(prefix="cengmoat-test-", dir=ROOM)
        self.addCleanup(shutil.rmtree, self.folder, ignore_errors=True)

    def store(self, **options: Any) -> cengmoat.Store:
        return cengmoat.Store(os.path.join(self.folder, "arrays"), **options)

    def keys(self, folder: str) -> list[str]:
        """Return the paths of all files below a folder, but for those of locks and the metadata of the group of saved arrays."""
        return sorted(os.path.relpath(os.path.join(at, name), folder) for at, _, names in os.walk(folder) for name in names
                      if os.path.basename(at) != ".locks" and (name != "zarr.json" or at not in (folder, os.path.join(self.folder, "arrays"))))

    def same(self, found: Any, wanted: Any, said: Any = None) -> None:
        """Compare an array with NumPy's: the kind of object, type, shape and each element."""
        self.assertIsInstance(found, np.ndarray, said)
        wanted = np.asarray(wanted)
        self.assertEqual(found.dtype, wanted.dtype, said)
        self.assertEqual(found.shape, wanted.shape, said)
        self.assertTrue(np.array_equal(found, wanted), f"{said}: {found} isn't {wanted}")

    def computes(self, lazy: cengmoat.Array, wanted: Any, said: Any = None) -> None:
        """Compare what is known of a lazy array beforehand, and what is computed, with NumPy's array."""
        wanted = np.asarray(wanted)
        self.assertEqual((lazy.dtype, lazy.shape), (wanted.dtype, wanted.shape), said)
        self.same(lazy.compute(), wanted, said)

    def fake_program(self, text: str) -> str:
        """Return the path of a program that is this Python text; `words` are its words."""
        path = os.path.join(self.folder, "fake")
        with open(path, "w", encoding="utf-8") as file:
            file.write(f"#!{sys.executable}\nimport os, sys, time\nwords = sys.argv[1:]\n{text}\n")
        os.chmod(path, stat.S_IRWXU)
        return path


class WithProgram(Case):
    """A test that runs the program; left out where there is none."""

    def setUp(self) -> None:
        if PROGRAM is None:
            self.skipTest("the proved program isn't built")
        super().setUp()

    def store(self, **options: Any) -> cengmoat.Store:
        return super().store(program=PROGRAM, **options)


__all__ = ["BUILT", "Case", "HERE", "INTEGERS", "OTHER", "PROGRAM", "PYTHON", "TOP", "TYPES", "WithProgram", "cengmoat", "np", "xp"]
