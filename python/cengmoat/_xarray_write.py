"""Results as xarray opens them: a group of Zarr with lazy arrays, each computed by one run, and what is in memory beside them.

All is written into a new folder beside the path, which takes the path's name at the end. So a failed call leaves nothing there.
"""
from __future__ import annotations

import contextlib
import importlib.metadata
import os
import shutil
from typing import Any, Iterator, Optional, Union

import numpy as np
import xarray

from ._array import Array
from ._dtypes import NDArray
from ._files import read_chunk, whole_chunk, write_file
from ._metadata import Metadata
from ._nodes import Node
from ._opening import new_folder, told
from ._packing import missing_of
from ._running import result_of
from ._zarr_plain import array_texts, as_text, chunk_key, group_texts, write_plain, write_texts
from .errors import Exists, Unfinished

Path = Union[str, os.PathLike[str]]
_conventions: Any = xarray.conventions


def _version(zarr_format: Optional[int]) -> int:
    """Return the version of metadata: as it is asked for, else 2 where zarr-python 2 is installed."""
    if zarr_format is not None:
        if isinstance(zarr_format, bool) or zarr_format not in (2, 3):
            raise ValueError(f"zarr_format is 2 or 3, and not {zarr_format!r}")
        return int(zarr_format)
    try:
        return 2 if importlib.metadata.version("zarr").partition(".")[0] == "2" else 3
    except importlib.metadata.PackageNotFoundError:
        return 3


def _check_new(path: str) -> None:
    """Refuse a path at which something lies, but for an empty folder, by Exists."""
    try:
        is_free = not os.path.lexists(path) or not os.path.islink(path) and os.path.isdir(path) and not os.listdir(path)
    except OSError as error:
        raise told(path, error) from None
    if not is_free:
        raise Exists(f"{path} isn't a new or an empty folder, and nothing there is written over: take another path", key=path)


def _check_name(name: Any) -> str:
    if not isinstance(name, str) or not name or name[0] == "." or "/" in name or "\0" in name or name in ("zarr.json", "c"):
        raise ValueError(f"{name!r} can't be the name of an array in a folder: x.rename(\"y\") takes another")
    return name


@contextlib.contextmanager
def _new_group(path: str) -> Iterator[str]:
    """Give a new folder, which is at a path in the end; where the block fails, nothing of it and of the folders above is left."""
    above, made = os.path.dirname(path), []
    at = above
    while not os.path.lexists(at):
        made.append(at)
        at = os.path.dirname(at)
    new = None
    try:
        try:
            os.makedirs(above, exist_ok=True)
            new = new_folder(path)
        except OSError as error:
            raise told(path, error) from None
        yield new
        try:
            # (this takes the place of an empty folder, and of nothing else)
            os.rename(new, path)
        except OSError as error:
            raise told(path, error) from None
    except BaseException:
        if new is not None:
            shutil.rmtree(new, ignore_errors=True)
        for folder in made:
            with contextlib.suppress(OSError):
                os.rmdir(folder)
        raise


def _moved(source: str, target: str) -> bool:
    """Give a file of this package's own another path, and return whether that could be done: it can't on another disk."""
    try:
        os.makedirs(os.path.dirname(target), exist_ok=True)
        os.rename(source, target)
    except OSError:
        return False
    return True


class _Lazy:
    """A lazy array on its way to a folder of its own."""

    def __init__(self, name: str, variable: Any, node: Node) -> None:
        self.name, self.node, self.dims = name, node, tuple(map(str, variable.dims))
        # (xarray drops attributes where it computes, and a lazy array keeps those that are still true; which coordinates it has xarray knows)
        kept = {key: value for key, value in Array(node).attrs.items() if key != "coordinates"}
        self.attributes: dict[str, Any] = {**kept, **variable.attrs}

    def write(self, folder: str, zarr_format: int, progress: Optional[bool], call: str) -> dict[str, Any]:
        """Compute it by one run, write it, and return its metadata."""
        with result_of(self.node, progress, call) as (store, stored, meta, is_own):
            attributes = {**self.attributes, **({"dtype": "bool"} if meta.is_truth else {})}
            fill = next(iter(missing_of(attributes, meta.dtype)), None)
            for coordinate in meta.coordinates():
                target = os.path.join(folder, chunk_key(zarr_format, coordinate))
                if is_own and _moved(os.path.join(store, meta.chunk_key(stored, coordinate)), target):
                    continue
                self._copy(store, stored, meta, coordinate, target, is_own, fill)
            texts = array_texts(zarr_format, meta.stored_dtype, meta.shape, meta.chunks, self.dims, attributes, fill)
            if "zarr.json" in texts and fill is None:
                # (what an absent chunk has is written, so this is only what is past the edge)
                texts["zarr.json"]["fill_value"] = bool(meta.fill) if meta.dtype.kind == "b" else meta.fill
        write_texts(folder, texts)
        return texts

    def _copy(self, store: str, stored: str, meta: Metadata, coordinate: tuple[int, ...], target: str, is_own: bool, fill: Optional[int]) -> None:
        chunk = read_chunk(store, stored, meta, coordinate)
        if chunk is None and is_own:
            raise Unfinished(f"the run has ended, and {meta.chunk_key(stored, coordinate)} isn't there: another program removed it")
        if chunk is None:
            chunk = np.full(meta.chunks, meta.fill, meta.dtype)
        write_file(os.path.dirname(target), os.path.basename(target), whole_chunk(meta, chunk))


class _InMemory:
    """An array in memory, encoded as xarray encodes it, on its way to a folder of its own."""

    def __init__(self, name: str, variable: Any) -> None:
        held = variable._data
        if type(held).__module__.partition(".")[0] == "dask":
            raise TypeError(f"{name} is an array of Dask, which isn't written beside lazy ones of Cengmoat: .load() computes it,"
                            f" and store.save({name!r}, x) stores it chunk by chunk")
        encoded = _conventions.encode_cf_variable(variable, name=name)
        self.name, self.dims, self.attributes = name, tuple(map(str, encoded.dims)), dict(encoded.attrs)
        self.data: NDArray = np.asarray(encoded.data)
        if self.data.dtype.kind == "O":
            self.data = self.data.astype(str)
        if self.data.dtype.kind not in "biufU":
            raise TypeError(f"{name} has the type {self.data.dtype}: numbers, truth values, texts and times are written beside a result")

    def write(self, folder: str, zarr_format: int, progress: Optional[bool], call: str) -> dict[str, Any]:
        """Write it, and return its metadata."""
        return write_plain(folder, zarr_format, self.data, self.dims, self.attributes)


def _variable(name: str, variable: Any) -> Union[_Lazy, _InMemory]:
    held = variable._data
    if isinstance(held, Array) and held.node.data is None:
        return _Lazy(name, variable, held.node)
    return _InMemory(name, variable if not isinstance(held, Array) else variable.copy(data=held.compute()))


def write_dataset(dataset: Any, path: Path, zarr_format: Optional[int], progress: Optional[bool], call: str) -> None:
    """Write a Dataset; see `DatasetAccessor.to_zarr`."""
    form, target = _version(zarr_format), os.path.abspath(os.path.expanduser(os.fspath(path)))
    _check_new(target)
    encoded, attributes = _conventions.encode_dataset_coordinates(dataset)
    variables = [_variable(_check_name(name), variable) for name, variable in encoded.items()]
    with _new_group(target) as folder:
        texts = group_texts(form, attributes)
        consolidated = dict(texts)
        write_texts(folder, texts)
        for it in variables:
            made = os.path.join(folder, it.name)
            consolidated |= {f"{it.name}/{key}": members for key, members in it.write(made, form, progress, call).items()}
        if form == 2:
            write_file(folder, ".zmetadata", as_text({"metadata": consolidated, "zarr_consolidated_format": 1}))
        _check_new(target)


def write_array_of(array: Any, path: Path, name: Optional[str], zarr_format: Optional[int], progress: Optional[bool]) -> None:
    """Write a DataArray; see `Accessor.to_zarr`."""
    its = array.name if name is None else name
    if its is None:
        raise ValueError(f"the array has no name: say one, as in x.cengmoat.to_zarr({os.fspath(path)!r}, name=\"y\")")
    if its in array.coords:
        raise ValueError(f"{its} is the name of a coordinate of the array: say another one, as in x.cengmoat.to_zarr(.., name=\"y\")")
    dataset = array.rename(its).to_dataset()
    write_dataset(dataset, path, zarr_format, progress, f"x.cengmoat.to_zarr({os.fspath(path)!r})")


_register: Any = xarray.register_dataset_accessor


@_register("cengmoat")
class DatasetAccessor:
    """What lazy arrays add to a Dataset of xarray."""

    def __init__(self, dataset: Any) -> None:
        self.dataset = dataset

    def to_zarr(self, path: Path, *, zarr_format: Optional[int] = None, progress: Optional[bool] = None) -> None:
        """Compute each lazy array by one run and write all to a folder, so that `xarray.open_zarr(path)` opens it.

        Parameters
        ----------
        path : str or path
            A new or an empty folder. A call that fails leaves nothing there.
        zarr_format : int, optional
            The version of the metadata, 2 or 3; else 2 where zarr-python 2 is installed.
        progress : bool, optional
            Whether a bar is shown; else on a terminal.

        Raises
        ------
        Exists
            Where something lies at the path.
        CengmoatError
            As of `Array.store`.
        TypeError, ValueError
            Where an array can't be written or has no name that a folder may have.
        """
        write_dataset(self.dataset, path, zarr_format, progress, f"ds.cengmoat.to_zarr({os.fspath(path)!r})")
