"""Errors of files as errors of the package, with the path and the call."""
from __future__ import annotations

import contextlib
from typing import Iterator

from ._opening import told
from .errors import BadChunk, StoreFailed


@contextlib.contextmanager
def files_of(folder: str) -> Iterator[None]:
    """Give what the system says of a file as StoreFailed with its path, which is the folder where the system names none."""
    try:
        yield
    except OSError as error:
        # (an error without a number is one of a library that reads a user's data)
        if error.errno is None:
            raise
        path = error.filename if isinstance(error.filename, str) else folder
        raise told(path, error) from None


@contextlib.contextmanager
def reading(call: str, folder: str) -> Iterator[None]:
    """Say with an error of a file which call it was, and the folder."""
    try:
        with files_of(folder):
            yield
    except (StoreFailed, BadChunk) as error:
        if not error.call:
            error.say(call=f"{call} in {folder}")
        raise
