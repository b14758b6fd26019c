"""The locks of a call in a folder that isn't there yet. It is made for them only where the call isn't
refused for its words or its text.
"""
from __future__ import annotations

import array
import contextlib
import json
from typing import Optional

import stdin_text
from options import plan_numbers
from words import Wrong, read
from said import Failed
from zarr_store import TYPES, Layout


def is_array(text: bytes) -> bool:
    """Whether a text for `load` is one of an array."""
    with contextlib.suppress(ValueError, KeyError, TypeError, OverflowError, RecursionError,
                             AttributeError, Failed):
        told = json.loads(text.decode("utf-8"))
        layout = Layout(told["data_type"], told["shape"], told["chunk_shape"])
        array.array(TYPES[layout.dtype], told["elements"])
        return True
    return False


def is_plan(folder: str, text: bytes, options: dict[str, int]) -> bool:
    """Whether a text has a plan over an empty folder with these options."""
    import tasks
    return tasks.of_text(folder, text, *plan_numbers(options)) is not None


def locks_of(words: list[str], text: Optional[bytes]) -> list[tuple[str, bool]]:
    """The locks that a call takes. Only what makes the folder takes any."""
    command = words[1]
    try:
        options, _ = read(*words)
    except Wrong:
        return []
    if command == "demo" or (command == "load" and text and is_array(text)) \
            or (command in ("run", "begin") and text and is_plan(words[0], text, options)):
        return stdin_text.locks_of(command, text)
    return []
