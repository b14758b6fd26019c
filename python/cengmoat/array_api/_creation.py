"""Arrays that are made from nothing, or from arrays in memory."""
from __future__ import annotations

from typing import Any, Optional, Union

import numpy as np

from .. import _build as build, _views as views
from .._array import Array
from .._dtypes import BOOL, INT64, DType, NDArray, as_dtype, as_int, as_literal, check_literal, check_unmasked, is_written
from .._operators import memory_node, scalar_node
from .._shapes import ChunksLike, as_chunks, as_shape
from ._common import FLOATS, check_device, dtype_or, lacks, made_dtype, node_of


def _number(value: Any, what: str) -> int:
    if isinstance(value, (float, np.floating)):
        lacks("floats", f"{what} is an integer, and not {value!r}")
    return as_int(value, what)


def arange(start: int, /, stop: Optional[int] = None, step: int = 1, *, dtype: Any = None, device: Any = None,
           chunks: ChunksLike = None) -> Array:
    """Return the integers from start, before stop, step apart; with one number, those from 0 before it.

    Parameters
    ----------
    start, stop, step : int
        Which numbers. The step isn't 0.
    dtype : dtype, optional
        An integer type; int64 where it isn't given.
    chunks : int or tuple of int, optional
        The chunk shape; else one with at most about 16 MiB.

    Raises
    ------
    ValueError
        Where the step is 0, or the first or the last number isn't one of the type.
    NotImplementedError
        For floats.
    """
    check_device(device)
    first, end = (0, start) if stop is None else (start, stop)
    return Array(views.arange(_number(first, "start"), _number(end, "stop"), _number(step, "step"), dtype_or(dtype, INT64), chunks))


def _listed(obj: Any, dtype: DType) -> NDArray:
    """Return nested lists of numbers in a type. NumPy would take 1 beside 2**63 for floats, and wrap a number that isn't in the range."""
    numbers = np.asarray(obj, dtype=object)
    for number in numbers.flat:
        check_literal(int(as_literal(number)), dtype, "asarray")
    return numbers.astype(dtype)


def asarray(obj: Any, /, *, dtype: Any = None, device: Any = None, copy: Optional[bool] = None, chunks: ChunksLike = None) -> Array:
    """Return a lazy array of a lazy array, an array in memory, a number or nested lists of numbers.

    An array in memory is copied now, and stored in the folder of the others while an expression over it runs.

    Parameters
    ----------
    obj : Array, numpy.ndarray, int, bool or nested sequence
        What the array has.
    dtype : dtype, optional
        The type; else that of `obj`, int64 of integers of Python.
    copy : bool, optional
        False is refused for what isn't lazy already.
    chunks : int or tuple of int, optional
        The chunk shape; else one with at most about 16 MiB.

    Raises
    ------
    TypeError, NotImplementedError
        Where it has another type, as floats.
    ValueError
        Where a number isn't one of the type, or a copy is forbidden.
    """
    check_device(device)
    if isinstance(obj, Array):
        found = obj.node if dtype is None else build.astype(obj.node, as_dtype(dtype))
        return Array(found if chunks is None else views.rechunk(found, chunks))
    if copy is False:
        raise ValueError("asarray of what isn't lazy makes a copy")
    if is_written(obj):
        value = as_literal(obj)
        default = np.asarray(obj).dtype if isinstance(obj, np.generic) else BOOL if isinstance(value, bool) else INT64
        return Array(scalar_node(value, dtype_or(dtype, default)))
    check_unmasked(obj)
    is_listed = isinstance(obj, (list, tuple)) and dtype is not None and as_dtype(dtype) != BOOL
    data = _listed(obj, as_dtype(dtype)) if is_listed else np.asarray(obj)
    if data.dtype == object or (data.size == 0 and not isinstance(obj, np.ndarray) and dtype is None):
        raise TypeError(f"an array of {data.dtype} isn't one of integers or truth values: say dtype= of what is empty")
    if dtype is not None and data.size == 0:
        data = data.astype(as_dtype(dtype))
    memory_dtype = as_dtype(data.dtype)
    found = memory_node(data, as_chunks(chunks, data.shape, memory_dtype))
    return Array(found if dtype is None else build.astype(found, as_dtype(dtype)))


def empty(shape: Union[int, tuple[int, ...]], *, dtype: Any = None, device: Any = None, chunks: ChunksLike = None) -> Array:
    """Return an array of a shape; its elements are 0. Parameters and errors as of ``zeros``."""
    check_device(device)
    return Array(views.full(as_shape(shape), *_zero(made_dtype(dtype, "empty((2, 3), dtype=int64)")), chunks))


def empty_like(x: Array, /, *, dtype: Any = None, device: Any = None, chunks: ChunksLike = None) -> Array:
    """Return an array of an array's shape, and of its type and chunks where none are given; its elements are 0."""
    return zeros_like(x, dtype=dtype, device=device, chunks=chunks)


def eye(n_rows: int, n_cols: Optional[int] = None, /, *, k: int = 0, dtype: Any = None, device: Any = None,
        chunks: ChunksLike = None) -> Array:
    """Return the matrix that is 1 on its k-th diagonal and 0 elsewhere. `dtype` must be given: the standard's default is a float."""
    check_device(device)
    rows = as_int(n_rows, "n_rows")
    cols = rows if n_cols is None else as_int(n_cols, "n_cols")
    return Array(views.eye(rows, cols, k, made_dtype(dtype, "eye(3, dtype=int64)"), chunks))


def from_dlpack(x: Any, /) -> Array:
    """Refuse: arrays are files, and no memory is shared."""
    lacks("from_dlpack", "arrays are files, and no memory is shared")


def full(shape: Union[int, tuple[int, ...]], fill_value: Any, *, dtype: Any = None, device: Any = None,
         chunks: ChunksLike = None) -> Array:
    """Return an array that has one value everywhere.

    Parameters
    ----------
    shape : int or tuple of int
        Its shape.
    fill_value : int or bool
        The value.
    dtype : dtype, optional
        Its type; else int64 of an integer, and bool of a truth value.
    chunks : int or tuple of int, optional
        Its chunk shape; else one with at most about 16 MiB.

    Raises
    ------
    TypeError, ValueError
        Where the value isn't one of the type.
    NotImplementedError
        For floats.
    """
    check_device(device)
    if isinstance(fill_value, (float, complex, np.inexact)):
        lacks("floats", f"fill_value is an integer or a truth value, and not {fill_value!r}")
    value = as_literal(fill_value)
    return Array(views.full(as_shape(shape), value, dtype_or(dtype, BOOL if isinstance(value, bool) else INT64), chunks))


def full_like(x: Array, /, fill_value: Any, *, dtype: Any = None, device: Any = None, chunks: ChunksLike = None) -> Array:
    """Return an array that has one value everywhere, of an array's shape, and of its type and chunks where none are given."""
    node = node_of(x)
    return full(node.shape, fill_value, dtype=dtype_or(dtype, node.dtype), device=device, chunks=node.chunks if chunks is None else chunks)


def linspace(start: Any, stop: Any, /, num: int, *, dtype: Any = None, device: Any = None, endpoint: bool = True) -> Array:
    """Refuse: there are no floats."""
    lacks("linspace", FLOATS)


def meshgrid(*arrays: Array, indexing: str = "xy") -> list[Array]:
    """Return the grids of coordinates of arrays of one axis, whose chunks they have.

    Raises
    ------
    ValueError
        Where an array hasn't one axis, or `indexing` is neither "xy" nor "ij".
    """
    if indexing not in ("xy", "ij"):
        raise ValueError(f"indexing is 'xy' or 'ij', and not {indexing!r}")
    nodes = [node_of(x, "each argument") for x in arrays]
    if any(len(node.shape) > 1 for node in nodes):
        raise ValueError("meshgrid takes arrays of one axis")
    nodes = [views.reshape(node, (1,)) if not node.shape else node for node in nodes]
    places = list(range(len(nodes)))
    if indexing == "xy" and len(nodes) > 1:
        places[:2] = [1, 0]
    shape, sides = [1] * len(nodes), [1] * len(nodes)
    for node, at in zip(nodes, places):
        shape[at], sides[at] = node.shape[0], node.chunks[0]
    along = [views.reshape(node, tuple(node.shape[0] if place == at else 1 for place in range(len(nodes))))
             for node, at in zip(nodes, places)]
    return [Array(views.broadcast_to(node, tuple(shape), tuple(sides))) for node in along]


def ones(shape: Union[int, tuple[int, ...]], *, dtype: Any = None, device: Any = None, chunks: ChunksLike = None) -> Array:
    """Return an array of ones, or of truth. Parameters and errors as of ``zeros``."""
    check_device(device)
    made = made_dtype(dtype, "ones((2, 3), dtype=int64)")
    return Array(views.full(as_shape(shape), made == BOOL or 1, made, chunks))


def ones_like(x: Array, /, *, dtype: Any = None, device: Any = None, chunks: ChunksLike = None) -> Array:
    """Return an array of ones of an array's shape, and of its type and chunks where none are given."""
    made = dtype_or(dtype, node_of(x).dtype)
    return full_like(x, made == BOOL or 1, dtype=made, device=device, chunks=chunks)


def tril(x: Array, /, *, k: int = 0) -> Array:
    """Return an array with 0 above its k-th diagonal; a ValueError where it has fewer than two axes."""
    return Array(views.triangle("tril", node_of(x), k))


def triu(x: Array, /, *, k: int = 0) -> Array:
    """Return an array with 0 below its k-th diagonal; a ValueError where it has fewer than two axes."""
    return Array(views.triangle("triu", node_of(x), k))


def _zero(dtype: DType) -> tuple[Union[int, bool], DType]:
    return (False if dtype == BOOL else 0), dtype


def zeros(shape: Union[int, tuple[int, ...]], *, dtype: Any = None, device: Any = None, chunks: ChunksLike = None) -> Array:
    """Return an array of zeros, or of falsehood.

    Parameters
    ----------
    shape : int or tuple of int
        Its shape.
    dtype : dtype
        Its type, which must be given: the standard's default is a float.
    chunks : int or tuple of int, optional
        Its chunk shape; else one with at most about 16 MiB.

    Raises
    ------
    NotImplementedError
        Where no type is given, or it is a float's.
    ValueError
        Where a size is negative, or the chunks don't fit the shape.
    """
    check_device(device)
    return Array(views.full(as_shape(shape), *_zero(made_dtype(dtype, "zeros((2, 3), dtype=int64)")), chunks))


def zeros_like(x: Array, /, *, dtype: Any = None, device: Any = None, chunks: ChunksLike = None) -> Array:
    """Return an array of zeros of an array's shape, and of its type and chunks where none are given."""
    value, made = _zero(dtype_or(dtype, node_of(x).dtype))
    return full_like(x, value, dtype=made, device=device, chunks=chunks)
