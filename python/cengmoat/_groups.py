"""Sums up to each place, and folds by labels along an axis: by functions that the program has, or not at all."""
from __future__ import annotations

from typing import Any, Optional

import numpy as np

from . import _build as build, _views as views
from ._array import Array
from ._dtypes import INT64, UINT64, as_dtype, as_int
from ._extremes import has
from ._nodes import Node
from ._refused import refuse
from ._shapes import one_axis

MOST_GROUPS = 65_536


def _total_dtype(node: Node) -> Any:
    return UINT64 if node.dtype.kind == "u" else INT64


def cumulative_sum(x: Node, axis: Optional[int], dtype: Any, include_initial: bool) -> Node:
    """Return the node of the sums from the first element to each, along an axis.

    Raises
    ------
    NotImplementedError
        Where the program has no such function.
    ValueError
        Where there is no axis and the array hasn't exactly one.
    """
    if axis is None and len(x.shape) != 1:
        raise ValueError(f"cumulative_sum of an array of {len(x.shape)} axes wants axis=")
    at = 0 if axis is None else one_axis(axis, len(x.shape))
    if x.dtype.kind == "b":
        x = build.astype(x, np.dtype("int8"))
    if not has("cumulative_sum", [x], {"args": ["x"], "axis": 0}, True):
        refuse("cumsum")
    found = build.make_node("cumulative_sum", (x,), _total_dtype(x), x.shape, x.chunks, {"axis": at})
    if include_initial:
        zeros = views.full((*x.shape[:at], 1, *x.shape[at + 1:]), 0, found.dtype, x.chunks)
        found = views.concat([zeros, found], at)
    return found if dtype is None else build.astype(found, as_dtype(dtype))


def _grouped(op: str, x: Any, labels: Any, axis: int, groups: int) -> Array:
    from .array_api._common import node_of
    source, its = node_of(x), node_of(labels, "labels")
    at, count = one_axis(axis, len(source.shape)), as_int(groups, "groups")
    if not 1 <= count <= MOST_GROUPS:
        raise ValueError(f"{op}: groups is from 1 to {MOST_GROUPS}, and not {count}")
    for it in (source, its):
        build.check_integers(op, it)
    if its.shape != (source.shape[at],):
        raise ValueError(f"{op}: labels have shape {its.shape}, and axis {at} has {source.shape[at]} elements")
    if not has(op, [source, its], {"args": ["x", "x"], "axis": 0, "groups": 1}, True):
        raise NotImplementedError(f"the program has no {op}: take slices by their label, and join their sums with xp.stack. Nothing was computed")
    dtype = _total_dtype(source) if op == "groupby_sum" else source.dtype
    shape, chunks = ((*sizes[:at], count, *sizes[at + 1:]) for sizes in (source.shape, source.chunks))
    return Array(build.make_node(op, (source, its), dtype, shape, chunks, {"axis": at, "groups": count}))


def groupby_sum(x: Any, labels: Any, axis: int, groups: int) -> Array:
    """Return the sums of the elements of each label along an axis.

    Parameters
    ----------
    x : Array
        Of integers.
    labels : Array or numpy.ndarray
        An integer for each place of the axis. An element whose label isn't from 0 to `groups` - 1 is in no group.
    axis : int
        The axis, which has `groups` elements in the result.
    groups : int
        How many groups there are, from 1 to 65,536.

    Raises
    ------
    TypeError, ValueError, IndexError
        Where the arguments don't fit.
    NotImplementedError
        Where the program has no such function.
    """
    return _grouped("groupby_sum", x, labels, axis, groups)


def groupby_min(x: Any, labels: Any, axis: int, groups: int) -> Array:
    """Return the least of the elements of each label; of none the greatest number of the type. As ``groupby_sum``."""
    return _grouped("groupby_min", x, labels, axis, groups)


def groupby_max(x: Any, labels: Any, axis: int, groups: int) -> Array:
    """Return the greatest of the elements of each label; of none the least number of the type. As ``groupby_sum``."""
    # (the bits of a number turn its order round)
    return ~_grouped("groupby_min", ~Array(_lazy(x)), labels, axis, groups)


def groupby_count(x: Any, labels: Any, axis: int, groups: int) -> Array:
    """Return how many elements each label has. As ``groupby_sum``."""
    source = _lazy(x)
    ones = views.full(source.shape, 1, np.dtype("int8"), source.chunks)
    ones.store = source.store
    return _grouped("groupby_sum", Array(ones), labels, axis, groups)


def _lazy(x: Any) -> Node:
    from .array_api._common import node_of
    return node_of(x)
