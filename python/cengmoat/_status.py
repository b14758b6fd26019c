"""Whether arrays are finished: by the record of a plan and the chunks that are stored."""
from __future__ import annotations

import contextlib
import os
import re
import stat
from dataclasses import dataclass
from typing import Iterator, Optional, Sequence

from ._dtypes import DType
from .errors import CengmoatError, StoreFailed, Unfinished
from ._files import stored_chunks
from ._locks import is_locked
from ._metadata import MOST_TEXT, Metadata, read_metadata, read_zarray, read_zattrs
from ._names import is_name, is_own, metadata_key, record_key, zarray_key
from ._opening import at_most, check_regular, read_regular, told
from ._shapes import Shape
from ._show import table_html, table_text
from ._sizes import bytes_text

# What a write of metadata or of a chunk that was stopped left.
LEFT = re.compile(r"(zarr\.json|\.zarray|c)\.new[0-9]+\Z")


@dataclass(frozen=True)
class ArrayStatus:
    """What is known of an array of a folder.

    Attributes
    ----------
    name : str
        Its name.
    dtype, shape, chunks
        Its type, shape and chunk shape; None where its metadata is missing or not accepted.
    stored, nchunks : int
        How many of its chunks are files of their length, and how many it has.
    is_finished : bool
        False where a run that makes it has begun and some of its chunks are missing, and where it can't be read; True also of an array that
        has no record.
    is_running : bool
        Whether a process that uses this package makes it now.
    nbytes : int
        The bytes of the chunks that are stored.
    why : str
        Why it can't be read, as where it is compressed, of floats, or a chunk is damaged; empty where it can.
    """

    name: str
    dtype: Optional[DType]
    shape: Optional[Shape]
    chunks: Optional[Shape]
    stored: int
    nchunks: int
    is_finished: bool
    is_running: bool
    nbytes: int
    why: str = ""

    @property
    def state(self) -> str:
        """One phrase: finished, running, unfinished, or can't be read."""
        return "running" if self.is_running else "finished" if self.is_finished else "can't be read" if self.why else "unfinished"


class Status(Sequence[ArrayStatus]):
    """The arrays of a folder, by name. It prints as a table in a terminal and in a notebook."""

    def __init__(self, arrays: Sequence[ArrayStatus]) -> None:
        self.arrays = tuple(arrays)

    def __getitem__(self, key):  # type: ignore[no-untyped-def]
        """Return the status of an array by its place or by its name."""
        if isinstance(key, str):
            found = next((it for it in self.arrays if it.name == key), None)
            if found is None:
                raise KeyError(key)
            return found
        return self.arrays[key]

    def __len__(self) -> int:
        return len(self.arrays)

    def __iter__(self) -> Iterator[ArrayStatus]:
        return iter(self.arrays)

    def _table(self) -> tuple[list[str], list[list[object]]]:
        heads = ["name", "type", "shape", "chunks", "stored", "state", "bytes"]
        return heads, [[it.name, str(it.dtype or "-"), str(it.shape if it.shape is not None else "-"),
                        str(it.chunks if it.chunks is not None else "-"), f"{it.stored} of {it.nchunks}", f"{it.state}: {it.why}" if it.why else it.state,
                        bytes_text(it.nbytes)] for it in self]

    def __repr__(self) -> str:
        return table_text(*self._table())

    def _repr_html_(self) -> str:
        return table_html(*self._table())


def _text(folder: str, key: str) -> Optional[bytes]:
    return read_regular(os.path.join(folder, key), key, at_most(MOST_TEXT))


def metadata_of(folder: str, name: str) -> Optional[Metadata]:
    """Return the layout of a stored array, or None where it has no metadata.

    Raises
    ------
    BadMetadata
        Where its metadata isn't accepted.
    StoreFailed
        Where something else than a regular file lies in its place, or the system refuses to read it.
    """
    try:
        if stat.S_ISREG(os.stat(os.path.join(folder, name)).st_mode):
            return None
    except (FileNotFoundError, NotADirectoryError):
        return None
    except OSError as error:
        raise told(name, error) from None
    text = _text(folder, metadata_key(name))
    if text is not None:
        return read_metadata(name, text)
    text = _text(folder, zarray_key(name))
    if text is None:
        return None
    attributes = None
    with contextlib.suppress(StoreFailed):
        attributes = read_zattrs(_text(folder, f"{name}/.zattrs"))
    return read_zarray(name, text, attributes)


def has_record(folder: str, name: str) -> bool:
    """Return whether there is the record of a plan that makes an array."""
    return os.path.lexists(os.path.join(folder, record_key(name)))


def _chunks(folder: str, name: str, meta: Metadata) -> tuple[int, int, str]:
    """Return how many chunks of an array are files of their length, how many aren't there, and what is wrong with the first of the others."""
    whole, missing, wrong = 0, 0, ""
    for coordinate in meta.coordinates():
        key = meta.chunk_key(name, coordinate)
        try:
            found = os.stat(os.path.join(folder, key))
            check_regular(key, found.st_mode)
        except (FileNotFoundError, NotADirectoryError):
            missing += 1
        except (OSError, StoreFailed) as error:
            wrong = wrong or (error.message if isinstance(error, StoreFailed) else f"{key}: {error.strerror}")
        else:
            if found.st_size == meta.chunk_bytes:
                whole += 1
            else:
                wrong = wrong or f"{key} has {found.st_size} bytes in place of {meta.chunk_bytes}"
    damaged = meta.nchunks - whole - missing
    return whole, missing, f"{damaged} damaged chunk{'' if damaged == 1 else 's'}, {wrong}" if damaged else ""


def status_of(folder: str, name: str) -> ArrayStatus:
    """Return the status of an array. Each of its chunk files is looked at, and none is read."""
    recorded, running, why = has_record(folder, name), is_locked(folder, name), ""
    try:
        meta = metadata_of(folder, name)
    except CengmoatError as error:
        meta, why = None, str(error).partition("\n")[0].rstrip(".")
    if meta is None:
        # (of a run that has begun it may come yet)
        why = why or ("" if recorded else "it has no zarr.json: a write that was stopped leaves this")
        return ArrayStatus(name, None, None, None, 0, 0, False, running, 0, why)
    whole, missing, why = _chunks(folder, name, meta)
    if recorded and missing:
        why = ""
    return ArrayStatus(name, meta.dtype, meta.shape, meta.chunks, whole, meta.nchunks, not why and not (recorded and missing), running,
                       whole * meta.chunk_bytes, why)


def _is_folder(entry: os.DirEntry[str]) -> bool:
    """Return whether an entry is a folder or a link to one; one that leads to itself, or where nobody may look, is none."""
    try:
        return entry.is_dir()
    except OSError:
        return False


def _entries(folder: str) -> list[str]:
    try:
        return [entry.name for entry in os.scandir(folder) if is_name(entry.name) and not is_own(entry.name) and _is_folder(entry)]
    except (FileNotFoundError, NotADirectoryError):
        return []
    except OSError as error:
        raise told(folder, error) from None


def array_names(folder: str) -> list[str]:
    """Return the names of the arrays of a folder that have metadata. What one call stores for itself isn't among them."""
    return sorted(name for name in _entries(folder)
                  if any(os.path.lexists(os.path.join(folder, key)) for key in (metadata_key(name), zarray_key(name))))


def _is_left(folder: str, name: str) -> bool:
    """Return whether chunks lie under a name, or what a stopped write of them or of metadata left."""
    try:
        return any(key == "c" or LEFT.match(key) for key in os.listdir(os.path.join(folder, name)))
    except OSError:
        return False


def all_names(folder: str, with_left: bool = False) -> list[str]:
    """Return the names that have metadata or the record of a plan; also those of what a stopped write left, where they are asked for."""
    recorded = [name for name in _entries(os.path.join(folder, "_cubed")) if has_record(folder, name)]
    known = {*array_names(folder), *recorded}
    left = [name for name in _entries(folder) if name not in known and _is_left(folder, name)] if with_left else []
    return sorted({*known, *left})


def _counts(folder: str, name: str) -> tuple[int, int]:
    """Return how many chunks of a result are stored, and how many it has; at least one where its metadata is missing."""
    meta = metadata_of(folder, name)
    return (0, 1) if meta is None else (stored_chunks(folder, name, meta), meta.nchunks)


def is_finished(folder: str, name: str) -> bool:
    """Return whether all chunks of a result are stored."""
    stored, count = _counts(folder, name)
    return stored == count


def check_finished(folder: str, name: str) -> None:
    """Refuse an array that a run has begun and not finished.

    Raises
    ------
    Unfinished
        Where it is one: some of its chunks are missing, and would be read as fill values.
    """
    if not has_record(folder, name):
        return
    stored, count = _counts(folder, name)
    if stored < count:
        raise Unfinished(f"{name} is the result of a run that hasn't finished: {stored} of {count} chunks are stored,"
                         " and the others would be read as fill values. Take it up again by store(.., resume=True) of its expression,"
                         " or say unfinished=True to use it as it is")
