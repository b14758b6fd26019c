"""Arrays in memory as stored arrays: chunk by chunk, whole or not at all, the metadata last."""
from __future__ import annotations

import contextlib
import os
from typing import Any

import numpy as np

from ._dtypes import NDArray, check_unmasked
from .errors import Exists, StoreFailed
from ._files import chunk_slices, whole_chunk, write_file
from ._metadata import Metadata
from ._names import metadata_key, record_key, zarray_key
from ._shapes import Shape

# What a group may have already, of either version, and what it gets.
GROUP_KEYS = ("zarr.json", ".zgroup", ".zarray", ".zattrs", ".zmetadata")
GROUP_TEXT = b'{"attributes":{},"node_type":"group","zarr_format":3}'


def check_absent(folder: str, name: str) -> None:
    """Refuse a name under which there is an array, or the record of a plan that makes one, by Exists."""
    for key in (record_key(name), metadata_key(name), zarray_key(name)):
        if os.path.lexists(os.path.join(folder, key)):
            raise Exists(key=key)


def write_group(folder: str) -> None:
    """Write a group's metadata into a folder in which an array was saved, by which other programs list its arrays.

    Nothing is written where there is metadata of either version, or an array of version 2, which such a group wouldn't list.
    """
    with contextlib.suppress(OSError, StoreFailed):
        if not any(os.path.lexists(os.path.join(folder, key)) for key in GROUP_KEYS) and not any(
                os.path.lexists(os.path.join(entry.path, ".zarray")) for entry in os.scandir(folder)):
            write_file(folder, "zarr.json", GROUP_TEXT)


def _part(data: Any, meta: Metadata, coordinate: Shape) -> NDArray:
    """Return what a chunk covers of an array, of which no more is read.

    Raises
    ------
    TypeError, ValueError
        Where it has another type or another shape than the array says.
    """
    slices = chunk_slices(meta, coordinate)
    taken = data[slices] if slices else data[()]
    check_unmasked(taken)
    part = np.asarray(taken)
    if part.dtype.newbyteorder("=") != meta.dtype:
        raise TypeError(f"a part of the array has type {part.dtype}, and the array {meta.dtype}")
    wanted = tuple(it.stop - it.start for it in slices)
    if part.shape != wanted:
        raise ValueError(f"a part of the array has shape {part.shape}, and not {wanted}")
    return part


def write_array(folder: str, name: str, meta: Metadata, data: Any, sync: bool = True) -> None:
    """Store an array under a name that is free, or nothing.

    Parameters
    ----------
    folder, name : str
        The folder of the arrays, and the name.
    meta : Metadata
        The layout.
    data : array-like
        Has the type and shape of the layout; parts of it are taken by slices.
    sync : bool
        Whether each file is on the disk before it has its name.
    """
    written: list[str] = []
    # (what is there already isn't ours, and stays)
    before = {at for at, _, _ in os.walk(os.path.join(folder, name))}
    try:
        for coordinate in meta.coordinates():
            part = _part(data, meta, coordinate)
            _write(folder, meta.chunk_key(name, coordinate), whole_chunk(meta, part), sync, written)
        _write(folder, metadata_key(name), meta.text().encode(), sync, written)
    except BaseException:
        _take_back(os.path.join(folder, name), written, before)
        raise


def _write(folder: str, key: str, data: bytes, sync: bool, written: list[str]) -> None:
    """Store a file and note it: before, where nothing lies there, since a stop may come once it has its name; else once it was replaced."""
    path = os.path.join(folder, key)
    if not os.path.lexists(path):
        written.append(path)
    write_file(folder, key, data, sync)
    if path not in written[-1:]:
        written.append(path)


def _take_back(folder: str, written: list[str], before: set[str]) -> None:
    """Remove what was stored, the metadata first, and the folders that were made for it and are empty."""
    for path in reversed(written):
        with contextlib.suppress(OSError):
            os.unlink(path)
    for at, _, _ in os.walk(folder, topdown=False):
        if at not in before:
            with contextlib.suppress(OSError):
                os.rmdir(at)
