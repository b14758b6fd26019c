"""A folder of arrays as a Dataset of xarray: lazy arrays, with their coordinates in memory."""
from __future__ import annotations

import contextlib
import importlib
import os
import warnings
from typing import Any, Iterable, Mapping, Optional, Union

import numpy as np
import xarray

from ._dtypes import NDArray
from ._store import Store
from ._shapes import product
from ._zarr_plain import MOST_BYTES, MOST_ELEMENTS, Outline, fill_of, outline_of, read_json, read_plain
from .errors import CengmoatError, StoreFailed

_conventions: Any = xarray.conventions
_variable: Any = xarray.Variable


def _listed(value: Any) -> list[str]:
    return value.split() if isinstance(value, str) else []


def _coordinate_names(outlines: Mapping[str, Outline], attributes: Mapping[str, Any]) -> set[str]:
    """Return which arrays are coordinates: those named as their one axis, and those that others name as theirs."""
    found = {name for name, its in outlines.items() if its.dims == (name,)}
    for its in (attributes, *(it.attributes for it in outlines.values())):
        found |= {name for name in _listed(its.get("coordinates")) if name in outlines}
    return found


def _by_zarr(folder: str, name: str) -> NDArray:
    """Return the elements of an array that zarr-python alone reads, as a compressed one.

    Raises
    ------
    StoreFailed
        Where zarr-python isn't installed, or doesn't read it.
    """
    try:
        zarr: Any = importlib.import_module("zarr")
    except ImportError:
        raise StoreFailed(f"the coordinate {name} of {folder} is read by zarr-python, which isn't installed", key=name) from None
    try:
        array = zarr.open_array(os.path.join(folder, name), mode="r")
        if array.nbytes <= MOST_BYTES:
            return np.asarray(array[...])
        error: object = f"it has {array.nbytes} bytes, and {MOST_BYTES} are the most that is read at once"
    except Exception as failed:
        error = f"{type(failed).__name__}: {failed}"
    raise StoreFailed(f"the coordinate {name} of {folder} isn't read by zarr-python: {error}", key=name)


def _outline(folder: str, name: str) -> Optional[Outline]:
    with contextlib.suppress(CengmoatError):
        return outline_of(folder, name)
    return None


def _coordinate(store: Store, name: str, outline: Outline) -> Any:
    """Return a coordinate, which is read at once, and times decoded."""
    if product(outline.shape) > MOST_ELEMENTS:
        raise StoreFailed(f"the coordinate {name} of {store.home(name)} has {product(outline.shape)} elements, and {MOST_ELEMENTS} are the most that"
                          f" is read at once: store[{name!r}] is a lazy array", key=name)
    try:
        values: Optional[NDArray] = store.read(name)
    except CengmoatError:
        values = read_plain(store.home(name), name, outline)
    if values is None:
        values = _by_zarr(store.home(name), name)
    attributes = {key: value for key, value in fill_of(outline.attributes, values.dtype).items() if key != "coordinates"}
    dims = outline.dims or tuple(f"{name}_dim_{at}" for at in range(values.ndim))
    return _conventions.decode_cf_variable(name, _variable(dims, values, attributes))


def _group_attributes(folder: str) -> dict[str, Any]:
    found = read_json(folder, "zarr.json")
    if found is not None:
        attributes = found.get("attributes", {})
        return attributes if isinstance(attributes, dict) and found.get("node_type") == "group" else {}
    return read_json(folder, ".zattrs") or {}


def _check_sizes(store: Store, variables: Mapping[str, Any]) -> None:
    """Refuse variables of which one axis has two sizes."""
    sizes: dict[str, tuple[int, str]] = {}
    for name, variable in variables.items():
        for dim, size in zip(variable.dims, variable.shape):
            known, other = sizes.setdefault(dim, (size, name))
            if known != size:
                raise ValueError(f"the axis {dim} has {known} elements in {other} and {size} in {name}, and in a Dataset it has one size:"
                                 f" name the arrays that go together, as in open_dataset({store.folder!r}, names=[{name!r}])")


def open_dataset(folder: Union[str, os.PathLike[str], Store], names: Optional[Iterable[str]] = None, **options: Any) -> Any:
    """Return the arrays of a folder as a Dataset of lazy arrays, with their coordinates.

    Packed numbers are as they are stored. Coordinates are read at once, and times are decoded; one that can't be read is left out with a
    warning. Arrays that can't be read, as compressed ones, aren't in it, unless they are coordinates; `Store.unread` says why. An axis
    without a name is called as its array.

    Parameters
    ----------
    folder : str, path or Store
        The folder of the arrays.
    names : iterable of str, optional
        Which arrays; else all that can be read.
    **options
        As of `Store`.

    Raises
    ------
    NoArray, BadMetadata, Unfinished
        Where an array that is named can't be read.
    ValueError
        Where one axis has several sizes.
    """
    store = folder if isinstance(folder, Store) else Store(folder, **options)
    if isinstance(names, str):
        raise TypeError(f"names is a list of names, as [{names!r}]")
    outlines = {name: its for name in store.names() if (its := _outline(store.home(name), name)) is not None}
    attributes = _group_attributes(store.folder)
    known = _coordinate_names(outlines, attributes)
    arrays = dict(store.items()) if names is None else {name: store[name] for name in names}
    variables: dict[str, Any] = {}
    for name, array in arrays.items():
        if name not in known:
            dims = tuple(dim or f"{name}_dim_{at}" for at, dim in enumerate(_dims(array)))
            variables[name] = _variable(dims, array, {key: value for key, value in array.attrs.items() if key != "coordinates"})
    used = {dim for its in variables.values() for dim in its.dims}
    wanted = [name for name in sorted(known) if names is None or name in arrays or _belongs(outlines[name], used)]
    coordinates: dict[str, Any] = {}
    for name in wanted:
        try:
            coordinates[name] = _coordinate(store, name, outlines[name])
        except CengmoatError as error:
            warnings.warn(f"a coordinate is left out: {error}", stacklevel=2)
    _check_sizes(store, {**coordinates, **variables})
    found = xarray.Dataset(variables, coords=coordinates)
    found.attrs = {name: value for name, value in attributes.items() if name != "coordinates"}
    return found


def _belongs(outline: Outline, used: set[str]) -> bool:
    return outline.dims is not None and set(outline.dims) <= used


def _dims(array: Any) -> tuple[Optional[str], ...]:
    """Return the names of an array's axes; one that stands twice is none the second time."""
    from ._labels import labels_of
    found: list[Optional[str]] = []
    for name in labels_of(array.node)[0]:
        found.append(None if name in found else name)
    return tuple(found)
