"""Reductions over axes, exact and wrapped once, at whichever chunks."""
from __future__ import annotations

from typing import Any, Optional, Union

from .. import _groups as groups
from .._array import Array
from ._common import FLOATS, Axes, lacks, node_of


def cumulative_sum(x: Array, /, *, axis: Optional[int] = None, dtype: Any = None, include_initial: bool = False) -> Array:
    """Return the sums from the first element to each, along an axis. (Of the standard 2023.12.)

    Parameters
    ----------
    x : Array
        Of integers, or of truth values, which are counted.
    axis : int, optional
        The axis; needn't be said where there is one.
    dtype : dtype, optional
        The type to which each sum is wrapped; else int64, and uint64 of unsigned types.
    include_initial : bool
        Whether the first element is 0, and the axis has one element more.

    Raises
    ------
    NotImplementedError
        Where the program has no such function.
    IndexError, ValueError
        Where the array hasn't the axis, or none is said and there are several.
    """
    return Array(groups.cumulative_sum(node_of(x), axis, dtype, include_initial))


def max(x: Array, /, *, axis: Axes = None, keepdims: bool = False) -> Array:
    """Return the greatest over axes, or over all where there are none.

    Raises
    ------
    TypeError
        For bool.
    IndexError
        Where the array hasn't an axis.
    ValueError
        Where an axis stands twice, or there is no element to choose from.
    """
    return Array(node_of(x)).max(axis, keepdims=keepdims)


def mean(x: Array, /, *, axis: Axes = None, keepdims: bool = False, **options: Any) -> Array:
    """Refuse: there are no floats."""
    lacks("mean", f"{FLOATS}; sum(x) // n is the mean rounded down")


def min(x: Array, /, *, axis: Axes = None, keepdims: bool = False) -> Array:
    """Return the least over axes; as ``max``."""
    return Array(node_of(x)).min(axis, keepdims=keepdims)


def prod(x: Array, /, *, axis: Axes = None, dtype: Any = None, keepdims: bool = False) -> Array:
    """Return the product over axes; as ``sum``, and of nothing 1."""
    return Array(node_of(x)).prod(axis, dtype=dtype, keepdims=keepdims)


def std(x: Array, /, *, axis: Axes = None, correction: Union[int, float] = 0.0, keepdims: bool = False,
        **options: Any) -> Array:
    """Refuse: there are no floats."""
    lacks("std", FLOATS)


def sum(x: Array, /, *, axis: Axes = None, dtype: Any = None, keepdims: bool = False) -> Array:
    """Return the sum over axes, or over all where there are none.

    Parameters
    ----------
    x : Array
        Of integers, or of truth values, which are counted.
    axis : int or tuple of int, optional
        The axes that are summed.
    dtype : dtype, optional
        The type to which the exact sum is wrapped once; else int64, and uint64 of unsigned types.
    keepdims : bool
        Whether these axes stay, with size 1.

    Raises
    ------
    IndexError
        Where the array hasn't an axis.
    ValueError
        Where an axis stands twice.
    """
    return Array(node_of(x)).sum(axis, dtype=dtype, keepdims=keepdims)


def var(x: Array, /, *, axis: Axes = None, correction: Union[int, float] = 0.0, keepdims: bool = False,
        **options: Any) -> Array:
    """Refuse: there are no floats."""
    lacks("var", FLOATS)
