"""The program of a repository or of an archive. This module imports nothing of the package, since the package's build uses it too."""
from __future__ import annotations

import functools
import os
from typing import Optional

SCRIPT = "cubed"
# Where the gate and the script leave the program that they proved and built, and where it lies in an archive.
BUILT = os.path.join("crates", "cu_bin", "out", "cu_bin")
ARCHIVED = os.path.join("program", "cubed")
LEFT_OUT = ("out", "must-fail", "more-edits")


def is_program(path: str) -> bool:
    """Return whether a path is a file that can be run."""
    return os.path.isfile(path) and os.access(path, os.X_OK)


@functools.lru_cache(maxsize=None)
def _is_old(top: str, built: int) -> bool:
    """Return whether a source of a repository is newer than the program that was built in it at this time, in nanoseconds."""
    for at, folders, files in os.walk(os.path.join(top, "crates")):
        folders[:] = [name for name in folders if name not in LEFT_OUT]
        if any(name.endswith((".rt", ".antt")) and os.stat(os.path.join(at, name)).st_mtime_ns > built for name in files):
            return True
    return os.stat(os.path.join(top, "crates.txt")).st_mtime_ns > built


def built_program(top: str) -> Optional[str]:
    """Return the program of a repository or of an archive, or None where the folder is neither.

    Raises
    ------
    LookupError
        Where it isn't built, or is older than its sources.
    """
    archived, built = os.path.join(top, ARCHIVED), os.path.join(top, BUILT)
    if is_program(archived):
        return archived
    if not os.path.isfile(os.path.join(top, "crates.txt")):
        return None
    if not is_program(built):
        raise LookupError(f"the program isn't built: {os.path.join(top, SCRIPT)} proves and builds it")
    if _is_old(top, os.stat(built).st_mtime_ns):
        raise LookupError(f"{built} is older than its sources: {os.path.join(top, SCRIPT)} proves and builds it anew")
    return built
