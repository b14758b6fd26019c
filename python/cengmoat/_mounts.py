"""Whether a folder lies on a file system of this machine, which says at a write what goes wrong with it."""
from __future__ import annotations

import os
import re
from typing import Optional

MOUNTS = "/proc/self/mountinfo"
# A full disk is told by the write itself. Others, as NFS, may tell it when a file is synced or closed, and what is read before is wrong.
PROMPT = frozenset(("ext2", "ext3", "ext4", "xfs", "btrfs", "tmpfs", "ramfs", "overlay", "zfs", "f2fs", "bcachefs"))
# How the system writes a blank in a path.
_ESCAPED = re.compile(r"\\([0-7]{3})")


def _mounts() -> str:
    try:
        with open(MOUNTS, encoding="utf-8", errors="surrogateescape") as file:
            return file.read()
    except OSError:
        return ""


def kind_of(path: str, mounts: str) -> Optional[str]:
    """Return the kind of the file system on which a path lies, by the system's list of mounts; None where it isn't known."""
    found, longest = None, -1
    for line in mounts.splitlines():
        head, _, tail = line.partition(" - ")
        fields, kinds = head.split(" "), tail.split(" ")
        if len(fields) < 5 or not tail:
            continue
        at = _ESCAPED.sub(lambda it: chr(int(it[1], 8)), fields[4])
        is_in = path == at or path.startswith(at.rstrip("/") + "/")
        # (of two mounts at one place the later one is seen)
        if is_in and len(at) >= longest:
            found, longest = kinds[0], len(at)
    return found


def reports_late(folder: str) -> bool:
    """Return whether a write in a folder may fail after it has returned, so that what is read back must be synced first."""
    return kind_of(os.path.realpath(folder), _mounts()) not in PROMPT
