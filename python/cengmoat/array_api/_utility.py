"""Whether some or all elements over axes are true; of integers those count as true that aren't 0."""
from __future__ import annotations

from .._array import Array
from ._common import Axes, node_of


def all(x: Array, /, *, axis: Axes = None, keepdims: bool = False) -> Array:
    """Return whether all elements over axes are true; of nothing, true."""
    return Array(node_of(x)).all(axis, keepdims=keepdims)


def any(x: Array, /, *, axis: Axes = None, keepdims: bool = False) -> Array:
    """Return whether an element over axes is true; of nothing, false."""
    return Array(node_of(x)).any(axis, keepdims=keepdims)
