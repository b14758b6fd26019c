"""A folder of stored arrays, and how expressions over them are run."""
from __future__ import annotations

import contextlib
import copy
import difflib
import json
import os
from typing import Any, Callable, ItemsView, Iterator, Mapping, NoReturn, Optional, Sequence, Union, ValuesView

import numpy as np

from ._array import Array
from ._build import astype
from ._calls import reading
from ._dtypes import NDArray, as_dtype, as_int, check_unmasked
from .errors import NoArray, NotRemoved
from ._files import read_index_of
from ._index import read_index
from ._left import telling
from ._links import check_unlinked, has_array, is_below
from ._locks import locked
from ._metadata import MOST_LEVELS, MOST_TEXT, Metadata, is_readable
from ._names import as_folder, check_free_name, check_name
from ._mounts import reports_late
from ._nodes import Node
from ._offers import offers_words
from ._plans import Report
from ._readable import ReadableItems, ReadableValues, readable
from ._program import find_program
from ._removing import Removal
from ._saving import check_absent, write_array, write_group
from ._shapes import ChunksLike, as_chunks, check_limits
from ._sizes import as_bytes
from ._sources import own_chunks
from ._status import Status, all_names, array_names, check_finished, metadata_of, status_of
from ._temporary import remove_names, uninterrupted


def _count(value: Any, low: int, high: int, what: str) -> int:
    count = as_int(value, what)
    if not low <= count <= high:
        raise ValueError(f"{what} is from {low} to {high}, and not {count}")
    return count


def _dims(data: Any, dims: Optional[Sequence[str]], ndim: int) -> Optional[tuple[str, ...]]:
    """Return the names of the axes that are given, or those of an array of xarray."""
    if dims is None:
        dims = getattr(data, "dims", None) if type(data).__module__.startswith("xarray.") else None
    if dims is None:
        return None
    if isinstance(dims, str) or len(dims) != ndim or not all(isinstance(name, str) and is_readable(name) for name in dims):
        raise ValueError(f"dims {dims!r}: one name for each of {ndim} axes is wanted")
    return tuple(dims)


def _attrs(data: Any, attrs: Optional[Mapping[str, Any]]) -> dict[str, Any]:
    """Return the attributes that are given, or those of an array of xarray; of the latter those that JSON has."""
    if attrs is not None:
        try:
            json.dumps(dict(attrs), allow_nan=False)
        except (TypeError, ValueError, RecursionError) as error:
            raise TypeError(f"attrs: {error}: attributes are texts, numbers, truth values, and lists of these") from None
        for name, value in attrs.items():
            if not is_readable({name: value}, MOST_LEVELS - 1):
                raise TypeError(f"attrs: {name!r} isn't read by each reader of Zarr: its name and each text are of UTF-8, a number is one"
                                f" that a float holds, and it has at most {MOST_LEVELS - 2} levels")
        return dict(attrs)
    found = {}
    for name, value in (getattr(data, "attrs", {}) if type(data).__module__.startswith("xarray.") else {}).items():
        plain = value.tolist() if isinstance(value, (np.generic, np.ndarray)) else value
        with contextlib.suppress(TypeError, ValueError, RecursionError):
            json.dumps({name: plain}, allow_nan=False)
            if is_readable({str(name): plain}, MOST_LEVELS - 1):
                found[str(name)] = plain
    return found


def _is_lazy(data: Any) -> bool:
    """Return whether it is a lazy array, or one of xarray over one. (`data.data` would read the whole of a file that xarray has opened.)"""
    held = getattr(getattr(data, "variable", data), "_data", None) if type(data).__module__.startswith("xarray.") else data
    return isinstance(held, Array)


class Store(Mapping[str, Array]):
    """A folder of arrays, as uncompressed Zarr v3 arrays. It is a mapping from names to lazy arrays, and `save` adds one.

    An expression over arrays of two stores of one folder runs with the options of the first, unless `store=` names another.

    Parameters
    ----------
    folder : str or path
        The folder. It is made with the first array that is saved.
    program : str, optional
        The path of the program; else it is found beside the package, in CENGMOAT_CUBED, or on the path.
    allowed_mem, reserved_mem : int or str
        The bytes that a task may need, and how many of them are set aside: 200000000, "2GB", "64MiB".
    workers : int, optional
        How many tasks run at once, from 1 to 64; else one for each processor that the process may use.
    retries : int
        How often a call or a task that failed is tried again, from 0 to 8.
    split_every : int
        How many partial results a task merges, from 2 to 64.
    fusion : int
        2 to compute arrays within the tasks that read them, where no other task does, and never store them; 1 to store each result but
        those of functions that are computed with another one. The elements are the same. A program that has no such option takes 1.
    work : str or path, optional
        A folder of yours for one that is only read: all that is stored lies there, with links to the arrays that are read. An expression
        over arrays of several folders is run in that of the first array whose store has one.

    Attributes
    ----------
    report : Report or None
        What the last run did.
    source : str or None
        Of a store over a work folder, the folder that is only read.

    Raises
    ------
    TypeError, ValueError
        Where an option isn't of its kind or in its range.
    NoProgram
        Where the program that is given isn't there.
    """

    def __init__(self, folder: Union[str, os.PathLike[str]], program: Optional[str] = None, allowed_mem: Union[int, str] = "200MB",
                 reserved_mem: Union[int, str] = 0, workers: Optional[int] = None, retries: int = 2, split_every: int = 4, fusion: int = 2,
                 work: Union[str, os.PathLike[str], None] = None) -> None:
        self.folder = as_folder(folder)
        self.work = None if work is None else as_folder(work)
        self.source: Optional[str] = None
        self.owner = self
        if self.work is not None and is_below(self.work, self.folder):
            raise ValueError(f"work: {self.work} is {self.folder} or lies in it, and nothing is written there: take another folder")
        self.allowed_mem = as_bytes(allowed_mem, "allowed_mem")
        self.reserved_mem = as_bytes(reserved_mem, "reserved_mem")
        self.workers = min(64, len(os.sched_getaffinity(0))) if workers is None else _count(workers, 1, 64, "workers")
        self.retries = _count(retries, 0, 8, "retries")
        self.split_every = _count(split_every, 2, 64, "split_every")
        self.fusion = _count(fusion, 1, 2, "fusion")
        self.report: Optional[Report] = None
        self._program = None if program is None else find_program(program)

    @property
    def program(self) -> str:
        """The path of the program; a NoProgram where it isn't found."""
        if self._program is None:
            self._program = find_program()
        return self._program

    def __repr__(self) -> str:
        work = "" if self.work is None else f", work={self.work!r}"
        return f"cengmoat.Store({self.folder!r}{work}, {len(self.names())} arrays)"

    def working(self) -> Store:
        """Return the store over the folder in which this one works: itself, where it has no work folder."""
        if self.work is None:
            return self
        found = copy.copy(self)
        found.folder, found.work, found.source = self.work, None, self.folder
        return found

    def home(self, name: str) -> str:
        """Return the folder in which an array of this name lies: that of what is stored, where something is, or the one that is read."""
        is_stored = self.work is not None and not os.path.islink(os.path.join(self.work, name)) and has_array(self.work, name)
        return self.work if is_stored and self.work is not None else self.folder

    def words(self, command: str, folder: Optional[str] = None, is_temporary: bool = False, fusion: Optional[int] = None) -> list[str]:
        """Return the words of a call of the program, over another folder and with another `fusion` where one is given.

        What is temporary isn't written to the disk before it has its name, where the program offers that and the folder tells errors at once.
        """
        found = [self.program, self.folder if folder is None else folder, command]
        if command != "check":
            found += ["--allowed-mem", str(self.allowed_mem), "--reserved-mem", str(self.reserved_mem),
                      "--split-every", str(self.split_every)]
            if (fusion or self.fusion) == 2 and offers_words(self.program, "plan", "--fusion", "2"):
                found += ["--fusion", "2"]
        if command != "plan":
            found += ["--retries", str(self.retries)]
        if command in ("run", "resume") and self.workers != 1:
            found += ["--workers", str(self.workers)]
        if is_temporary and offers_words(self.program, command, "--sync", "0") and not reports_late(self.folder):
            found += ["--sync", "0"]
        return found

    # Stored arrays

    def names(self) -> list[str]:
        """Return the names of the stored arrays, in order; `status` says which of them are finished."""
        return self._all(array_names)

    def _all(self, names: Callable[[str], list[str]]) -> list[str]:
        """Return the names of both folders. A link in the work folder is no array of its own."""
        found = names(self.folder)
        if self.work is None:
            return found
        return sorted({*found, *(name for name in names(self.work) if not os.path.islink(os.path.join(self.work, name)))})

    def __iter__(self) -> Iterator[str]:
        return iter(self.names())

    def __len__(self) -> int:
        return len(self.names())

    def __contains__(self, name: object) -> bool:
        return name in self.names()

    def items(self) -> ItemsView[str, Array]:
        """Return the names with their lazy arrays, without those that can't be read; `unread` says why they can't."""
        return ReadableItems(self)

    def values(self) -> ValuesView[Array]:
        """Return the lazy arrays of `items`."""
        return ReadableValues(self)

    def unread(self) -> dict[str, str]:
        """Return why each array that `items` passes over can't be read, by name: as compressed, of floats, or unfinished."""
        return {name: why for name, _, why in readable(self) if why}

    # (two stores are the same if they are one object: their arrays aren't compared)
    __eq__ = object.__eq__
    __hash__ = object.__hash__

    def __setitem__(self, name: str, value: Any) -> NoReturn:
        call = f"x.store({name!r}) computes and stores" if isinstance(value, Array) else f"store.save({name!r}, x) stores"
        raise TypeError(f"nothing is stored by an assignment: {call} an array")

    def __delitem__(self, name: str) -> NoReturn:
        raise TypeError(f"del removes nothing: store.remove({name!r}) removes a result with the record of its run")

    def __enter__(self) -> Store:
        return self

    def __exit__(self, *error: object) -> None:
        """Do nothing: no file is open between two calls."""

    def _missing(self, name: str) -> NoArray:
        """Return the error that says that there is no array, and which names are near."""
        names = self._all(all_names)
        near = difflib.get_close_matches(name, names, 3, 0.5) or [it for it in names if it.lower() == name.lower()]
        some = ", ".join(names[:10]) + (", .." if len(names) > 10 else "")
        said = f" Near names: {', '.join(near)}." if near else f" There are: {some}." if names else ""
        where = "" if os.path.isdir(self.folder) else ", which is no folder"
        return NoArray(f"there is no array {name!r} in {self.folder}{where}.{said}", name=name)

    def _layout(self, name: str) -> Metadata:
        found = metadata_of(self.home(check_name(name)), name)
        if found is None:
            raise self._missing(name)
        return found

    def array(self, name: str, *, unfinished: bool = False) -> Array:
        """Return a stored array as a lazy one. Only its metadata is read.

        Parameters
        ----------
        name : str
            Its name.
        unfinished : bool
            Whether it is given also where it is the result of a run that hasn't finished; missing chunks have the fill value.

        Raises
        ------
        NoArray
            Where there is none of this name.
        BadMetadata
            Where its metadata isn't accepted.
        Unfinished
            Where a run has begun it and not finished.
        TypeError, ValueError
            Where the name isn't one.
        """
        with reading(f"store[{name!r}]", self.folder):
            meta = self._layout(name)
            home = self.home(name)
            if not unfinished:
                check_finished(home, name)
        node = Node.stored(self, name, meta, unfinished, home)
        return Array(astype(node, meta.seen_dtype))

    def __getitem__(self, name: str) -> Array:
        return self.array(name)

    def save(self, name: str, data: Any, chunks: ChunksLike = None, *, dims: Optional[Sequence[str]] = None,
             attrs: Optional[Mapping[str, Any]] = None) -> Array:
        """Store an array chunk by chunk, whole or not at all, and return it as a lazy one.

        Parameters
        ----------
        name : str
            The name under which it is stored.
        data : array-like
            An array of integers or truth values. Of one that has `shape`, `dtype` and slices (a memory map, an array of another
            library) only a chunk at a time is in memory.
        chunks : int or tuple of int, optional
            The chunk shape; -1 means the whole axis. Else that of an array of Zarr, Dask or xarray, or chunks of at most about 16 MiB.
        dims : sequence of str, optional
            The names of the axes; else those of the data, if it is an array of xarray.
        attrs : mapping, optional
            Attributes, of what JSON has; else those of the data, if it is an array of xarray.

        Raises
        ------
        TypeError
            Where the type isn't one of the program's, as float64, or the name isn't a text.
        ValueError
            Where the name isn't one, the chunks don't fit the shape, or the array is above the limits.
        Exists
            Where there is an array of this name, or the record of a plan that makes one.
        """
        check_free_name(name)
        if _is_lazy(data):
            raise TypeError(f"save takes an array in memory: x.store({name!r}) computes and stores a lazy one")
        check_unmasked(data)
        if not all(hasattr(data, it) for it in ("shape", "dtype", "__getitem__")):
            data = np.asarray(data)
        try:
            dtype = as_dtype(data.dtype)
        except NotImplementedError as error:
            raise TypeError(str(error)) from None
        shape = tuple(int(size) for size in data.shape)
        sides = as_chunks(own_chunks(data, shape, dtype) if chunks is None else chunks, shape, dtype)
        check_limits(shape, sides, dtype, "save")
        meta = Metadata(dtype, shape, sides, dimensions=_dims(data, dims, len(shape)), attributes=_attrs(data, attrs))
        if len(meta.text()) > MOST_TEXT:
            raise ValueError(f"attrs: the metadata has {len(meta.text())} bytes with them, and {MOST_TEXT} are the most that is read")
        folder = self.working().folder
        check_unlinked(self.working(), name)
        with telling(f"store.save({name!r}, ..)", folder, name, True), locked(folder, name):
            check_absent(folder, name)
            write_array(folder, name, meta, data)
            write_group(folder)
        return self.array(name)

    def read(self, name: str, index: Any = ..., *, unfinished: bool = False) -> NDArray:
        """Return elements of a stored array. Only the chunks that have one of them are read.

        Parameters
        ----------
        name : str
            Its name.
        index : int, slice, None, ... or tuple of these
            Which elements, as in brackets behind a NumPy array.
        unfinished : bool
            Whether it is read also where it is the result of a run that hasn't finished; missing chunks have the fill value.

        Raises
        ------
        NoArray, BadMetadata, Unfinished
            As of `array`.
        BadChunk
            Where a chunk file hasn't the bytes of a chunk.
        IndexError, ValueError, NotImplementedError
            Where the index isn't one of the array.
        """
        with reading(f"store.read({name!r})", self.folder):
            meta = self._layout(name)
            home = self.home(name)
            if not unfinished:
                check_finished(home, name)
            found = read_index_of(home, name, meta, read_index(index, meta.shape))
        return found != 0 if meta.is_truth else found

    def status(self) -> Status:
        """Return the name, type, shape, whole chunks, state and bytes of each array, also of those that are unfinished or can't be read."""
        with reading("store.status()", self.folder):
            return Status([status_of(self.home(name), name) for name in self._all(lambda folder: all_names(folder, True))])

    def remove(self, name: str, *, inputs: bool = False) -> list[str]:
        """Remove an array, the record of the run that made it, and all on the way to it.

        A link is removed, and nothing of what it leads to. Files in the array's folder that are no part of it stay. All is tested
        before the first file goes, and the metadata goes first: no reader takes the rest for an array.

        Parameters
        ----------
        name : str
            The name.
        inputs : bool
            Whether an array is removed that no run made, as one that `save` stored.

        Returns
        -------
        list of str
            The files that stay, since they are no part of the array.

        Raises
        ------
        NoArray
            Where there is neither an array nor a record of this name.
        NotRemoved
            Where no run made it and `inputs` isn't set, or it is a group of arrays.
        Locked
            Where another process computes or stores it now.
        StoreFailed
            Where a file can't be removed.
        """
        with reading(f"store.remove({name!r})", self.folder):
            if self.work is not None and self.home(check_name(name)) == self.folder and has_array(self.folder, name):
                raise NotRemoved(f"{name} isn't removed: it lies in {self.folder}, which is only read", name=name)
            folder = self.working().folder
            if Removal(folder, check_name(name)).is_nothing:
                raise self._missing(name)
        with telling(f"store.remove({name!r})", folder, name), locked(folder, name, remove=True) as lock, uninterrupted():
            found = Removal(folder, name)
            found.check(inputs)
            found.remove()
            # (what a killed call that stored it kept beside it)
            remove_names(folder, lock.left)
            lock.write()
        return found.kept
