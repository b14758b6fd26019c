"""What a program offers, where programs of different days differ. It is asked once a process, by calls that can't store anything."""
from __future__ import annotations

import functools
import json
import os
import shlex
import subprocess
import tempfile
from typing import Optional, Sequence

from ._program import LOG, environment, find_program
from .errors import NoProgram

# The answers by which a call is known to have been understood: a text that is empty, and an array that isn't there.
NO_TEXT, NO_ARRAY = 3, 8
MOST_SECONDS = 20


@functools.lru_cache(maxsize=None)
def _answer(program: str, changed: int, words: Sequence[str], text: str) -> Optional[int]:
    """Return the status of a call over an empty folder, or None where the program gives none."""
    del changed
    with tempfile.TemporaryDirectory(prefix="cengmoat-") as folder:
        try:
            found = subprocess.run([program, folder, *words], input=text.encode(), stdout=subprocess.DEVNULL, stderr=subprocess.DEVNULL,
                                   env=environment(), timeout=MOST_SECONDS).returncode
            LOG.debug("%s: status %d, to see what it offers", shlex.join([program, folder, *words]), found)
            return found
        except (OSError, subprocess.TimeoutExpired):
            return None


def _asked(program: str, words: Sequence[str], text: str) -> Optional[int]:
    try:
        changed = os.stat(program).st_mtime_ns
    except OSError:
        return None
    return _answer(program, changed, tuple(words), text)


def offers_words(program: str, *words: str) -> bool:
    """Return whether a program knows a command with its options, which reads a text."""
    return _asked(program, words, "") == NO_TEXT


def offers_op(op: str, program: Optional[str] = None, **members: object) -> bool:
    """Return whether a program knows a function, which is told with an array that isn't there as its arguments."""
    try:
        found = program or find_program()
    except NoProgram:
        return False
    nodes: list[dict[str, object]] = [{"id": "x", "op": "input", "name": "x"}, {"id": "y", "op": op, **members}]
    text = json.dumps({"nodes": nodes, "out": "y", "store_as": "y"})
    return _asked(found, ["plan"], text) == NO_ARRAY
