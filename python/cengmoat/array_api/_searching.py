"""Places and choices; also the functions of sets, sorting and indexing that the program lacks."""
from __future__ import annotations

from typing import Any, Optional

from .. import _build as build, _taking as taking
from .._array import Array
from .._dtypes import BOOL, INT64
from .._missing import kept_missing
from .._nodes import Node
from .._operators import scalar_node
from ._common import VALUES, Argument, lacks, node_of, node_or_literal

SORTING = "a result would need all chunks along the axis at once"


def argmax(x: Array, /, *, axis: Optional[int] = None, keepdims: bool = False) -> Array:
    """Return the first place of the greatest along an axis, or in the whole array row by row, as int64.

    Raises
    ------
    TypeError
        For bool.
    IndexError
        Where the array hasn't the axis.
    ValueError
        Where there is no element to choose from.
    """
    return Array(build.search("argmax", node_of(x), axis, keepdims))


def argmin(x: Array, /, *, axis: Optional[int] = None, keepdims: bool = False) -> Array:
    """Return the first place of the least; as ``argmax``."""
    return Array(build.search("argmin", node_of(x), axis, keepdims))


def where(condition: Array, x1: Argument, x2: Argument, /) -> Array:
    """Return the elements of x1 where the condition is true, and those of x2 elsewhere.

    Where one of both is a number, what is missing in the other stays missing, unless the condition compares with the number that stands
    for it: see ``Array.fill_missing``.

    Parameters
    ----------
    condition : Array
        Of truth values.
    x1, x2 : Array, int or bool
        What is chosen from. The shapes of all three broadcast.

    Raises
    ------
    TypeError
        Where the condition isn't of truth values, or x1 and x2 have no common type.
    ValueError
        Where the shapes don't broadcast, or a number isn't one of the type.
    """
    args = [node_or_literal(x1, "x1"), node_or_literal(x2, "x2")]
    if not any(isinstance(arg, Node) for arg in args):
        args[0] = scalar_node(args[0], BOOL if isinstance(args[0], bool) else INT64)
    holds, chosen = node_of(condition, "condition"), [arg for arg in args if isinstance(arg, Node)]
    found = build.where(holds, args[0], args[1])
    return Array(kept_missing(found, chosen, holds) if len(chosen) == 1 else found)


def nonzero(x: Array, /) -> tuple[Array, ...]:
    """Refuse: the shape would depend on values."""
    lacks("nonzero", VALUES)


def take(x: Array, indices: Array, /, *, axis: Optional[int] = None) -> Array:
    """Return the elements at some places along an axis: places in memory at equal distances alone, which is a slice."""
    if axis is None and len(node_of(x).shape) != 1:
        raise ValueError("take of an array of several axes wants axis=")
    return Array(taking.take(node_of(x), indices, axis))


def unique_all(x: Array, /) -> Any:
    """Refuse: the shape would depend on values."""
    lacks("unique_all", VALUES)


def unique_counts(x: Array, /) -> Any:
    """Refuse: the shape would depend on values."""
    lacks("unique_counts", VALUES)


def unique_inverse(x: Array, /) -> Any:
    """Refuse: the shape would depend on values."""
    lacks("unique_inverse", VALUES)


def unique_values(x: Array, /) -> Array:
    """Refuse: the shape would depend on values."""
    lacks("unique_values", VALUES)


def argsort(x: Array, /, *, axis: int = -1, descending: bool = False, stable: bool = True) -> Array:
    """Refuse: the program doesn't sort."""
    lacks("argsort", SORTING)


def sort(x: Array, /, *, axis: int = -1, descending: bool = False, stable: bool = True) -> Array:
    """Refuse: the program doesn't sort."""
    lacks("sort", SORTING)
