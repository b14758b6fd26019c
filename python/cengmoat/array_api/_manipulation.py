"""Views: parts, orders, shapes and joins of arrays. Chunks follow those of the first array."""
from __future__ import annotations

from typing import Optional, Union

from .. import _views as views
from .._array import Array
from ._common import Axes, node_of


def concat(arrays: Union[tuple[Array, ...], list[Array]], /, *, axis: Optional[int] = 0) -> Array:
    """Return arrays one behind the other along an axis, or all elements row by row where it is None.

    The chunks are those of the first, along the axis those of the longest.

    Raises
    ------
    TypeError
        Where they have no common type.
    IndexError
        Where they haven't the axis.
    ValueError
        Where there are none, or their shapes differ off the axis.
    """
    nodes = [node_of(x, "each of arrays") for x in arrays]
    if axis is None:
        nodes, axis = [views.reshape(node, (-1,)) if len(node.shape) != 1 else node for node in nodes], 0
    return Array(views.concat(nodes, axis))


def expand_dims(x: Array, /, *, axis: int = 0) -> Array:
    """Return an array with an axis of size 1 put in; an IndexError where there is no such place."""
    return Array(views.expand_dims(node_of(x), axis))


def flip(x: Array, /, *, axis: Axes = None) -> Array:
    """Return an array in the opposite order along axes, or along all where there are none."""
    return Array(views.flip(node_of(x), axis))


def permute_dims(x: Array, /, axes: tuple[int, ...]) -> Array:
    """Return an array with its axes in another order; a ValueError where not each of them stands once."""
    return Array(views.permute_dims(node_of(x), axes))


def reshape(x: Array, /, shape: tuple[int, ...], *, copy: Optional[bool] = None) -> Array:
    """Return the same elements, row by row, in another shape, of which one size may be -1.

    Raises
    ------
    ValueError
        Where the count of elements differs.
    """
    return Array(views.reshape(node_of(x), shape))


def roll(x: Array, /, shift: Union[int, tuple[int, ...]], *, axis: Axes = None) -> Array:
    """Return an array whose elements are moved round along axes, or through the whole array row by row where there are none.

    Raises
    ------
    IndexError
        Where the array hasn't an axis.
    ValueError
        Where there isn't one shift for each axis.
    """
    return Array(views.roll(node_of(x), shift, axis))


def squeeze(x: Array, /, axis: Union[int, tuple[int, ...]]) -> Array:
    """Return an array with axes of size 1 taken out; a ValueError where one has another size."""
    if axis is None:
        raise TypeError("squeeze: axis is an integer or a tuple of them, and not None")
    return Array(views.squeeze(node_of(x), axis))


def stack(arrays: Union[tuple[Array, ...], list[Array]], /, *, axis: int = 0) -> Array:
    """Return arrays of one shape side by side along a new axis; errors as of ``concat``."""
    return Array(views.stack([node_of(x, "each of arrays") for x in arrays], axis))
