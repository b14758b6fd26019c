"""The files of a folder: each is written whole under another name, synced, and renamed into place."""
from __future__ import annotations

import contextlib
import itertools
import os
from typing import Any, Iterator, Optional

import numpy as np

from ._dtypes import NDArray
from .errors import BadChunk, Unfinished
from ._index import Index, Taken
from ._metadata import Metadata
from ._opening import new_file, read_regular, told
from ._shapes import Shape


def write_file(folder: str, key: str, data: bytes, sync: bool = True) -> None:
    """Store a file whole: no moment and no stop leaves a part of it under its name.

    Parameters
    ----------
    folder, key : str
        The folder of the arrays, and the file below it.
    data : bytes
        What it has.
    sync : bool
        Whether it is on the disk before it has its name.

    Raises
    ------
    StoreFailed
        Where the system refuses, as on a full disk; it says what the system says.
    """
    path = os.path.join(folder, key)
    new = None
    try:
        os.makedirs(os.path.dirname(path), exist_ok=True)
        descriptor, new = new_file(path)
        with open(descriptor, "wb", buffering=0) as file:
            left = memoryview(data)
            while left:
                left = left[file.write(left):]
            if sync:
                os.fsync(descriptor)
        os.replace(new, path)
    except BaseException as error:
        if new is not None:
            with contextlib.suppress(OSError):
                os.unlink(new)
        if isinstance(error, OSError):
            raise told(key, error) from None
        raise


def chunk_slices(meta: Metadata, coordinate: Shape) -> tuple[slice, ...]:
    """Return the part of the array that a chunk covers."""
    return tuple(slice(at * side, min((at + 1) * side, size)) for at, side, size in zip(coordinate, meta.chunks, meta.shape))


def whole_chunk(meta: Metadata, part: NDArray) -> bytes:
    """Return the bytes of a chunk of which `part` lies in the array; what stands past the edge is the fill value."""
    if part.shape != meta.chunks:
        whole = np.full(meta.chunks, meta.fill, meta.dtype)
        whole[tuple(slice(0, size) for size in part.shape)] = part
        part = whole
    return np.ascontiguousarray(part, meta.stored_dtype).tobytes()


def read_chunk(folder: str, name: str, meta: Metadata, coordinate: Shape) -> Optional[NDArray]:
    """Return a chunk, or None where it is absent.

    Raises
    ------
    BadChunk
        Where its file hasn't the bytes of a chunk.
    StoreFailed
        Where something else than a regular file lies there, or the system refuses to read it.
    """
    key, want = meta.chunk_key(name, coordinate), meta.chunk_bytes

    def check(length: int) -> int:
        if length != want:
            raise BadChunk(key=key, got=length, want=want)
        return length

    data = read_regular(os.path.join(folder, key), key, check)
    if data is None:
        return None
    # (it may have been cut off since)
    check(len(data))
    if meta.dtype == np.dtype("bool"):
        return (np.frombuffer(data, np.uint8) != 0).reshape(meta.chunks)
    return np.frombuffer(data, meta.stored_dtype).reshape(meta.chunks)


def _parts(taken: Taken, side: int) -> Iterator[tuple[int, Any, slice]]:
    """Go over the chunks of an axis of which an element is taken: the chunk, where in it, and where in the result."""
    at = 0
    while at < taken.count:
        first = taken.start + at * taken.step
        chunk = first // side
        # The last place of this chunk in the direction of the step.
        room = (chunk + 1) * side - 1 - first if taken.step > 0 else first - chunk * side
        count = min(taken.count - at, room // abs(taken.step) + 1)
        inside = first - chunk * side
        stop = inside + (count - 1) * taken.step + (1 if taken.step > 0 else -1)
        yield chunk, slice(inside, None if stop < 0 else stop, taken.step), slice(at, at + count)
        at += count


def read_index_of(folder: str, name: str, meta: Metadata, index: Index, is_whole: bool = False) -> NDArray:
    """Return the elements that an index takes of a stored array. Each chunk that has one of them is read once, and no other.

    Parameters
    ----------
    folder, name, meta, index
        The array, and what is taken of it.
    is_whole : bool
        Whether each chunk was stored, as of a result that a run has just made: then an absent one isn't the fill value.

    Returns
    -------
    numpy.ndarray
        Of the shape of the index and the array's type, in the machine's byte order.

    Raises
    ------
    BadChunk
        Where a chunk file hasn't the bytes of a chunk.
    Unfinished
        Where a chunk that was stored isn't there.
    """
    out = np.full(tuple(taken.count for taken in index.axes), meta.fill, meta.dtype)
    for parts in itertools.product(*(list(_parts(taken, side)) for taken, side in zip(index.axes, meta.chunks))):
        coordinate = tuple(part[0] for part in parts)
        chunk = read_chunk(folder, name, meta, coordinate)
        if chunk is None and is_whole:
            raise Unfinished(f"the run has ended, and {meta.chunk_key(name, coordinate)} isn't there: another program removed it")
        if chunk is not None:
            out[tuple(part[2] for part in parts)] = chunk[tuple(part[1] for part in parts)]
    return out.reshape(index.shape)


def _is_file(entry: os.DirEntry[str]) -> bool:
    try:
        return entry.is_file()
    except OSError:
        return False


def stored_chunks(folder: str, name: str, meta: Metadata) -> int:
    """Return how many chunks of an array are stored: each folder in which chunks lie is listed once, and no file is looked at."""
    if meta.nchunks == 0:
        return 0
    # Below a separator `/` each axis but the last is a folder; else all chunks lie in one.
    inner = 0 if meta.separator == "." else max(0, len(meta.shape) - 1)
    first = meta.chunk_key(name, (0,) * len(meta.shape))
    top = os.path.join(folder, *first.split("/")[:-1 - inner])
    head = "c." if meta.encoding == "default" and meta.separator == "." else ""
    tails = itertools.product(*(map(str, range(count)) for count in meta.numblocks[inner:]))
    names = {head + ".".join(tail) for tail in tails} if meta.shape else {first.split("/")[-1]}
    found = 0
    for at in itertools.product(*(map(str, range(count)) for count in meta.numblocks[:inner])):
        with contextlib.suppress(OSError), os.scandir(os.path.join(top, *at)) as entries:
            found += sum(entry.name in names and _is_file(entry) for entry in entries)
    return found
