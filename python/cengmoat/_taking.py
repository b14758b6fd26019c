"""Elements by their places along an axis: those at equal distances are a slice, and others are refused with the line to write."""
from __future__ import annotations

from typing import Any, Optional

import numpy as np

from . import _views as views
from ._nodes import Node
from ._shapes import one_axis


def take(source: Node, indices: Any, axis: Optional[int]) -> Node:
    """Return the node of the elements at some places along an axis, or row by row where there is none.

    Raises
    ------
    TypeError
        Where a place isn't an integer.
    IndexError
        Where the array hasn't the axis or the place.
    NotImplementedError
        Where the places aren't at equal distances, or are lazy.
    """
    if axis is None:
        source, axis = views.reshape(source, (-1,)), 0
    at = one_axis(axis, len(source.shape))
    if not hasattr(indices, "node"):
        indices = np.asarray(indices)
        if indices.size and indices.dtype.kind not in "iu":
            raise TypeError(f"take: a place is an integer, and not {indices.dtype}")
        indices = indices if indices.ndim else int(indices)
    return views.index(source, (*[slice(None)] * at, indices))
