"""What stands in an archive beside the program: the scripts and pages that need neither the toolchain
nor the sources, by their folder.
"""
from __future__ import annotations

import os
import shutil

TOP = os.path.dirname(os.path.dirname(os.path.realpath(__file__)))
SHIPPED = {
    "tools": ("zarr", "zarr_store.py", "folder.py", "tasks.py", "locks.py", "said.py", "stdin_text.py", "fresh.py", "locked.py",
              "options.py", "words.py", "call.py", "explain.py"),
    "compare": ("rules.py", "copies.py", "inlined.py", "limits.py", "operators.py", "reductions.py"),
}
# (a page that the repository hasn't is left out)
PAGES = ("GUIDE.md", "OPERATORS.md", "ANSWERS.md", "DATA.md", "RECIPES.md", "FROM_XARRAY.md", "FOLDERS.md", "COMING_FROM.md")


def put_scripts(to: str) -> None:
    """Copies the script cubed, the scripts that it calls, and what they read, to a folder that is there."""
    shutil.copy(f"{TOP}/cubed", f"{to}/cubed")
    for folder, names in SHIPPED.items():
        os.makedirs(f"{to}/{folder}", exist_ok=True)
        for name in names:
            shutil.copy(f"{TOP}/{folder}/{name}", f"{to}/{folder}/{name}")
    shutil.copytree(f"{TOP}/tools/manual", f"{to}/tools/manual")


def put_pages(to: str) -> None:
    """Copies the pages for users, and the examples."""
    os.makedirs(f"{to}/docs", exist_ok=True)
    for name in PAGES:
        if os.path.exists(f"{TOP}/docs/{name}"):
            shutil.copy(f"{TOP}/docs/{name}", f"{to}/docs/{name}")
    shutil.copytree(f"{TOP}/examples", f"{to}/examples", ignore=shutil.ignore_patterns("__pycache__"))
