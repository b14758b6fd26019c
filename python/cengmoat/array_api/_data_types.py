"""The standard's data types, and its functions on them."""
from __future__ import annotations

from dataclasses import dataclass
from functools import reduce
from typing import Any, Union

import numpy as np

from .. import _build as build, _views as views
from .._array import Array
from .._dtypes import DType, as_dtype, greatest, least, promote
from .._shapes import broadcast
from ._common import FLOATS, lacks, node_of

bool = np.dtype("bool")
int8 = np.dtype("int8")
int16 = np.dtype("int16")
int32 = np.dtype("int32")
int64 = np.dtype("int64")
uint8 = np.dtype("uint8")
uint16 = np.dtype("uint16")
uint32 = np.dtype("uint32")
uint64 = np.dtype("uint64")
# The standard has these, and the program lacks them: a call that is to make one is refused.
float32 = np.dtype("float32")
float64 = np.dtype("float64")
complex64 = np.dtype("complex64")
complex128 = np.dtype("complex128")

KINDS = {"bool": "b", "signed integer": "i", "unsigned integer": "u", "integral": "iu", "real floating": "f",
         "complex floating": "c", "numeric": "iufc"}


@dataclass(frozen=True)
class iinfo_object:
    """The limits of an integer type: its bits, its greatest and its least number, and the type."""

    bits: int
    max: int
    min: int
    dtype: DType


def _dtype_of(x: Any) -> DType:
    return x.dtype if isinstance(x, Array) else as_dtype(x.dtype if isinstance(x, np.ndarray) else x)


def astype(x: Array, dtype: Any, /, *, copy: Any = True) -> Array:
    """Return an array in another type: each number is wrapped to it, and to bool 0 is false and all else true."""
    return Array(build.astype(node_of(x), as_dtype(dtype)))


def broadcast_arrays(*arrays: Array) -> list[Array]:
    """Return arrays stretched to their common shape; a ValueError where they don't broadcast."""
    nodes = [node_of(x, "each argument") for x in arrays]
    shape = broadcast([node.shape for node in nodes], "broadcast_arrays")
    return [Array(views.broadcast_to(node, shape)) for node in nodes]


def broadcast_to(x: Array, /, shape: tuple[int, ...], *, chunks: Any = None) -> Array:
    """Return an array stretched to a shape.

    Parameters
    ----------
    x : Array
        The array.
    shape : tuple of int
        The shape to which it broadcasts.
    chunks : int or tuple of int, optional
        The chunk shape; else that of the array, and on axes that are stretched one with at most about 16 MiB.

    Raises
    ------
    ValueError
        Where the array doesn't broadcast to the shape.
    """
    return Array(views.broadcast_to(node_of(x), shape, chunks))


def can_cast(from_: Union[Array, Any], to: Any, /) -> Any:
    """Return whether a type or an array's type may stand where another type stands, by the rules of promotion."""
    source, target = _dtype_of(from_), as_dtype(to)
    try:
        return promote(source, target) == target
    except TypeError:
        return False


def finfo(type: Any, /) -> Any:
    """Refuse: there are no floats."""
    lacks("finfo", FLOATS)


def iinfo(type: Any, /) -> iinfo_object:
    """Return the limits of an integer type, or of an array's; a TypeError for bool."""
    dtype = _dtype_of(type)
    if dtype == bool:
        raise TypeError("iinfo is of integer types, and not of bool")
    return iinfo_object(8 * dtype.itemsize, greatest(dtype), least(dtype), dtype)


def isdtype(dtype: Any, kind: Any) -> Any:
    """Return whether a type is of a kind: another type, the name of a kind, or one of several."""
    if isinstance(kind, tuple):
        return any(isdtype(dtype, it) for it in kind)
    if isinstance(kind, str):
        if kind not in KINDS:
            raise ValueError(f"{kind!r} isn't one of the kinds {', '.join(KINDS)}")
        return np.dtype(dtype).kind in KINDS[kind]
    return np.dtype(dtype) == np.dtype(kind)


def result_type(*arrays_and_dtypes: Any) -> DType:
    """Return the type to which types and arrays' types are promoted, from the left.

    Raises
    ------
    TypeError
        Where they have no common type: bool and an integer type, or uint64 and a signed one.
    ValueError
        Where none is given.
    """
    if not arrays_and_dtypes:
        raise ValueError("result_type takes one array or type or more")
    return reduce(promote, (_dtype_of(it) for it in arrays_and_dtypes))
